//! Files that may not be read or written, and folders in which no name may be made.

use crate::program::sheet::files::{additions, commands, two, works};
use crate::program::sheet::judge::Run;
use crate::program::sheet::made::{Command, Maker, Place, NAME};
use crate::program::sheet::second::complaint;
use crate::program::sheet::sentences::{NOT_MADE, NOT_NAMED, NOT_OPENED};
use std::fs::{self, File, Permissions};
use std::os::unix::fs::PermissionsExt;
use std::process;

/// The words that start a program as another user, to whom only what is permitted to all is.
const OTHER: [&str; 6] = [
    "setpriv",
    "--reuid",
    "65534",
    "--regid",
    "65534",
    "--clear-groups",
];

/// A script that ends with status 0 if the folder and the program, which stand after it, can be used.
const USES: &str = "test -w \"$0\" && test -x \"$1\"";

/// A script that starts the program, which stands first after it, with a folder that takes no new
/// names.
const SHUT: &str = "chmod a-w \"$SHUT\" && \"$0\" \"$@\" && chmod u+w \"$SHUT\"";

/// Who starts the program where permissions count.
#[derive(Clone, Copy, PartialEq)]
enum User {
    /// Whoever runs this, to whom not everything is permitted.
    This,
    /// Another one, since everything is permitted to whoever runs this.
    Other,
    /// Whoever runs this, to whom everything is permitted, since no other one can.
    Any,
}

/// Sets the mode of a file or a folder.
fn set_mode(path: &str, mode: u32) {
    let set = fs::set_permissions(path, Permissions::from_mode(mode));
    set.unwrap_or_else(|wrong| panic!("{path}: {wrong}"));
}

/// Makes the sheet's file with this mode; its path.
fn put(place: &Place, mode: u32) -> String {
    let path = place.put(NAME, &two());
    set_mode(&path, mode);
    path
}

/// Whether another user can use the program in a folder.
fn other_can(folder: &str, program: &str) -> bool {
    let tried = process::Command::new(OTHER[0])
        .args(&OTHER[1..])
        .args(["sh", "-c", USES, folder, program])
        .status();
    tried.is_ok_and(|status| status.success())
}

/// Who starts the program where permissions count. The folder of all folders is opened for another.
fn user(maker: &mut Maker, program: &str) -> User {
    let place = maker.place();
    if File::open(put(&place, 0)).is_err() {
        return User::This;
    }
    maker.open();
    set_mode(&place.folder, 0o777);
    match other_can(&place.folder, program) {
        true => User::Other,
        false => {
            println!("permissions are not tried: setpriv gives no user whom they bind");
            User::Any
        }
    }
}

impl User {
    /// The run, started by this user.
    fn starts(self, run: Run) -> Run {
        match self {
            User::Other => run.started(&OTHER),
            _ => run,
        }
    }

    /// What must come of a command about a path: this sentence if permissions count, and the file of
    /// this name stays as it is.
    fn run(self, maker: &Maker, command: &Command, path: &str, name: &str, said: &str) -> Run {
        match self {
            User::Any => maker.run(command, path, name, &two()),
            _ => command.run(path, complaint(said)),
        }
    }
}

/// A file that may not be read, in a folder in which everyone may make names.
fn unreadable(maker: &mut Maker, user: User) {
    for command in commands() {
        let place = maker.place();
        set_mode(&place.folder, 0o777);
        let run = user.run(maker, &command, &put(&place, 0), NAME, NOT_OPENED);
        maker.case(place, vec![user.starts(run)]);
    }
}

/// A folder in which no name may be made: what only reads is not hindered. It is shut here for
/// another user, and otherwise while the program runs, so that it can be removed.
fn shut_folder(maker: &mut Maker, user: User) {
    for command in commands() {
        let place = maker.place();
        set_mode(&place.folder, 0o755);
        let shut = place.put_folder("shut");
        let name = format!("shut/{NAME}");
        let path = place.put(&name, &two());
        let run = match command.words[0] == "add" {
            true => user.run(maker, &command, &path, &name, NOT_MADE),
            false => maker.run(&command, &path, &name, &two()),
        };
        let run = match user {
            User::Other => {
                set_mode(&shut, 0o555);
                user.starts(run)
            }
            _ => run.started(&["env", &format!("SHUT={shut}"), "sh", "-c", SHUT]),
        };
        maker.case(place, vec![run]);
    }
}

/// A folder in which everyone may make names and only its owner may replace the file: FILE.new does
/// not get its name.
fn sticky_folder(maker: &mut Maker, user: User) {
    for command in additions() {
        let place = maker.place();
        set_mode(&place.folder, 0o1777);
        let path = put(&place, 0o644);
        let wanted = maker.wanted(&command, &two());
        let run = match wanted.sheet {
            Some(_) => user.run(maker, &command, &path, NAME, NOT_NAMED),
            None => command.run(&path, wanted),
        };
        maker.case(place, vec![user.starts(run)]);
    }
}

/// Every case about permissions. That a file may not be written is no hindrance.
pub fn all(maker: &mut Maker, program: &str) {
    works(maker, commands(), |place| put(place, 0o444), NAME);
    let user = user(maker, program);
    unreadable(maker, user);
    shut_folder(maker, user);
    if user == User::Other {
        sticky_folder(maker, user);
    }
}
