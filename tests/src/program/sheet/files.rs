//! Files that are missing, that are links or no files, and a FILE.new that is there.

use crate::program::sheet::made::{add_cover, command, Command, Maker, Place, FILE, NAME, NEW};
use crate::program::sheet::second::complaint;
use crate::program::sheet::sentences::{NOT_MADE, NOT_OPENED, NOT_READ, THERE};
use crate::sheets::made::record;
use std::fs;
use std::os::unix::fs::symlink;
use std::process;
use std::thread::spawn;

/// A sheet of two records.
pub fn two() -> Vec<u8> {
    let block = [0xFF, 0xFF, 0xFF, 0xFF, 0xF0, 0, 0, 0, 4, 0];
    [record((7, 11), 0, &block), record((7, 12), 9, &block)].concat()
}

/// The commands that only read.
pub fn readings() -> Vec<Command> {
    let words = ["check FILE", "list FILE", "at FILE 1", "find FILE 7 12"];
    let absent = ["at FILE 2", "find FILE 7 13"];
    words.into_iter().chain(absent).map(command).collect()
}

/// The commands that add, with success and without.
pub fn additions() -> Vec<Command> {
    let block = "5 01230123400000000400";
    vec![
        command(&format!("add {FILE} 7 13 {block}")),
        command(&format!("add {FILE} 7 12 {block}")),
        command(&format!("add {FILE} 0 13 {block}")),
        add_cover("8 0", b".names SECRET_IN SECRET_OUT\n1 1\n"),
        add_cover("8 0", b".names SECRET SECRET\n1 1\n"),
    ]
}

/// Every command.
pub fn commands() -> Vec<Command> {
    readings().into_iter().chain(additions()).collect()
}

/// A case of each command about the path that is made, by the same words for all.
pub fn fails(
    maker: &mut Maker,
    commands: Vec<Command>,
    path: impl Fn(&Place) -> String,
    said: &str,
) {
    for command in commands {
        let place = maker.place();
        let run = command.run(&path(&place), complaint(said));
        maker.case(place, vec![run]);
    }
}

/// A case of each command about the path that is made, which leads to the sheet of two records; the
/// longer sheet then stands under the name.
pub fn works(
    maker: &mut Maker,
    commands: Vec<Command>,
    path: impl Fn(&Place) -> String,
    name: &str,
) {
    for command in commands {
        let place = maker.place();
        let path = path(&place);
        let run = maker.run(&command, &path, name, &two());
        maker.case(place, vec![run]);
    }
}

/// A script that starts the program with a byte after the second word, the file's name, by which it is
/// no UTF-8.
const NOT_TEXT: [&str; 3] = [
    "sh",
    "-c",
    "first=$1 name=$2 && shift 2 && exec \"$0\" \"$first\" \"$name$(printf '\\377')\" \"$@\"",
];

/// Names that are no UTF-8: such a file is not asked for, and none is made.
fn no_text(maker: &mut Maker) {
    for (commands, said) in [(readings(), NOT_OPENED), (additions(), NOT_MADE)] {
        for command in commands {
            let place = maker.place();
            let said = format!("{said} The name is not UTF-8");
            let run = command.run(&place.put(NAME, &two()), complaint(&said));
            maker.case(place, vec![run.started(&NOT_TEXT)]);
        }
    }
}

/// Files that are not there, folders, and links that lead nowhere.
fn missing(maker: &mut Maker) {
    let link = |place: &Place, to: &str| {
        let path = place.path(NAME);
        symlink(to, &path).expect("a link is made");
        path
    };
    fails(maker, commands(), |place| place.path(NAME), NOT_OPENED);
    fails(maker, commands(), |place| link(place, "none"), NOT_OPENED);
    fails(maker, commands(), |place| link(place, NAME), NOT_OPENED);
    fails(maker, commands(), |place| place.put_folder(NAME), NOT_READ);
    let slash = |place: &Place| place.put_folder(NAME) + "/";
    fails(maker, commands(), slash, NOT_READ);
    let below = |place: &Place| place.path("none/SECRET");
    fails(maker, readings(), below, NOT_OPENED);
    fails(maker, additions(), below, NOT_MADE);
    let below = |place: &Place| place.put(NAME, &two()) + "/";
    fails(maker, readings(), below, NOT_OPENED);
    fails(maker, additions(), below, NOT_MADE);
}

/// Links: to a file, which stays as it is when a record is added, and another name of the same file.
fn links(maker: &mut Maker) {
    let soft = |place: &Place| {
        place.put_folder("kept");
        place.put("kept/SECRET", &two());
        let path = place.path(NAME);
        symlink("kept/SECRET", &path).expect("a link is made");
        path
    };
    works(maker, commands(), soft, NAME);
    let hard = |place: &Place| {
        let path = place.path(NAME);
        fs::hard_link(place.put("kept", &two()), &path).expect("a name is made");
        path
    };
    works(maker, commands(), hard, NAME);
}

/// FILE.new is there already, as a file, as a folder and as a link: what only reads is not hindered,
/// nothing is added, and it stays, also where FILE is not there.
fn there_already(maker: &mut Maker) {
    type Put = fn(&Place);
    let puts: [Put; 5] = [
        |place| drop(place.put(NEW, b"")),
        |place| drop(place.put(NEW, &two())),
        |place| drop(place.put_folder(NEW)),
        |place| symlink("none", place.path(NEW)).expect("a link is made"),
        |place| symlink(NAME, place.path(NEW)).expect("a link is made"),
    ];
    for put in puts {
        let with = |place: &Place| {
            put(place);
            place.put(NAME, &two())
        };
        works(maker, readings(), with, NAME);
        fails(maker, additions(), with, THERE);
        let without = |place: &Place| {
            put(place);
            place.path(NAME)
        };
        fails(maker, additions(), without, THERE);
    }
}

/// A pipe with a name, to which these bytes are written once it is opened.
fn pipe(place: &Place, bytes: Vec<u8>) -> String {
    let path = place.path(NAME);
    let made = process::Command::new("mkfifo").arg(&path).status();
    assert!(made.is_ok_and(|status| status.success()), "no pipe is made");
    let to = path.clone();
    spawn(move || fs::write(to, bytes));
    path
}

/// Files that are no plain ones, and files that are far too long.
fn strange(maker: &mut Maker) {
    for command in readings() {
        for (path, sheet) in [("/dev/zero", vec![0; 65_535]), ("/dev/null", vec![])] {
            let (place, wanted) = (maker.place(), maker.wanted(&command, &sheet));
            maker.case(place, vec![command.run(path, wanted)]);
        }
    }
    works(maker, readings(), |place| pipe(place, two()), NAME);
    for command in commands() {
        for length in [65_534, 65_535, 65_536, 70_000, 1_000_000, 1_000_006] {
            maker.each(&vec![0xFF; length], std::slice::from_ref(&command));
        }
        let (place, wanted) = (maker.place(), maker.wanted(&command, &[0; 65_535]));
        symlink("/dev/zero", place.path(NAME)).expect("a link is made");
        let run = command.run(&place.path(NAME), wanted);
        maker.case(place, vec![run]);
    }
}

/// Every case about files.
pub fn all(maker: &mut Maker) {
    missing(maker);
    no_text(maker);
    links(maker);
    there_already(maker);
    strange(maker);
}
