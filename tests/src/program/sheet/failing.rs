//! System calls that fail: by a library that LD_PRELOAD loads before the C library (failing.c), and
//! by a limit to the length of a file, as on a full disk.

use crate::program::run::BLOCK;
use crate::program::sheet::folder::Thing;
use crate::program::sheet::judge::Run;
use crate::program::sheet::made::{add_cover, command, Command, Maker, NAME, NEW};
use crate::program::sheet::outputs::unheard;
use crate::program::sheet::second::{complaint, Said, Wanted};
use crate::program::sheet::sentences::{failed, meaning};
use crate::program::sheet::sentences::{FOLDER_NOT_FLUSHED, FOLDER_NOT_OPENED};
use crate::program::sheet::sentences::{NOT_FLUSHED, NOT_MADE, NOT_NAMED, NOT_OPENED};
use crate::program::sheet::sentences::{NOT_READ, NOT_REMOVED, NOT_WRITTEN};
use crate::sheets::made::sheet;
use crate::sheets::second::{MOST, RECORD};
use std::process;

/// Calls that fail while a file is read, and what is said. Of the numbers, 5 is a fault of the disk,
/// 24 too many open files.
const READING: [(&str, &str); 4] = [
    ("open 1 24", NOT_OPENED),
    ("open 1 5", NOT_OPENED),
    ("read 1 5", NOT_READ),
    ("read 2 5", NOT_READ),
];

/// Calls that fail while a longer sheet is kept; 13, 18 and 30 are that it may not be, that it is
/// another disk, and that nothing can be written there; 28 and 122 are a full disk and a full share.
const KEEPING: [(&str, &str); 11] = [
    ("create 1 13", NOT_MADE),
    ("create 1 24", NOT_MADE),
    ("create 1 28", NOT_MADE),
    ("write 1 28", NOT_WRITTEN),
    ("write 1 5", NOT_WRITTEN),
    ("fsync 1 5", NOT_FLUSHED),
    ("fsync 1 28", NOT_FLUSHED),
    ("rename 1 5", NOT_NAMED),
    ("rename 1 13", NOT_NAMED),
    ("rename 1 18", NOT_NAMED),
    ("rename 1 30", NOT_NAMED),
];

/// Closing that fails once what was written is on disk: nothing asks for what it answers. FILE.new is
/// not given up, so that its removal, which would fail, is not asked for either.
const CLOSING: [&str; 3] = ["close 1 5", "close 1 122", "close 1 122 unlink 1 13"];

/// Calls that a signal interrupts, 4: each is made again.
const INTERRUPTED: [&str; 6] = [
    "create 1 4",
    "open 1 4",
    "write 1 4",
    "fsync 1 4",
    "open-folder 1 4",
    "fsync-folder 1 4",
];

/// The same where writing fails once some is written.
const WRITING: [(&str, &str); 2] = [("write 2 28", NOT_WRITTEN), ("write 3 5", NOT_WRITTEN)];

/// Calls that fail once the longer sheet has the file's name.
const FLUSHING: [(&str, &str); 3] = [
    ("fsync-folder 1 5", FOLDER_NOT_FLUSHED),
    ("fsync-folder 1 22", FOLDER_NOT_FLUSHED),
    ("open-folder 1 24", FOLDER_NOT_OPENED),
];

/// Calls that fail so that FILE.new is given up, which is then not removed either: before anything is
/// written to it, and once all is.
const UNWRITTEN: [(&str, &str); 3] = [
    ("open 1 24", NOT_OPENED),
    ("read 1 5", NOT_READ),
    ("write 1 28", NOT_WRITTEN),
];
const WRITTEN: [(&str, &str); 2] = [("fsync 1 5", NOT_FLUSHED), ("rename 1 30", NOT_NAMED)];

/// The call that removes FILE.new fails.
const REMOVING: (&str, &str) = ("unlink 1 13", NOT_REMOVED);

/// The calls by which a record is added.
const ORDER: [&str; 9] = [
    "create",
    "open",
    "read",
    "write",
    "fsync",
    "close",
    "rename",
    "open-folder",
    "fsync-folder",
];

/// How many bytes are moved at most by a call that moves fewer than it is asked to.
const SHORT: [usize; 5] = [1, 13, 14, 4095, 4097];

/// The error of a write beyond the limit to the length of a file.
const TOO_LONG: i32 = 27;

/// A script that starts the program with a limit to the length of a file, in blocks.
const LIMITED: &str = "trap '' XFSZ && ulimit -f \"$BLOCKS\" && exec \"$0\" \"$@\"";

/// The commands that only read.
fn readings() -> Vec<Command> {
    let words = ["check FILE", "list FILE", "at FILE 0", "find FILE 1 0"];
    words.map(command).into()
}

/// The commands that add a record.
fn additions() -> [Command; 2] {
    [
        command("add FILE 65535 4095 5 01230123400000000400"),
        add_cover("65535 4095", b".names SECRET_IN SECRET_OUT\n1 1\n"),
    ]
}

/// Compiles the library; its path.
fn library(folder: &str) -> String {
    let (source, path) = (
        concat!(env!("CARGO_MANIFEST_DIR"), "/failing.c"),
        format!("{folder}/failing.so"),
    );
    let words = "-std=c11 -Wall -Wextra -Werror -pedantic -O1 -shared -fPIC -o";
    let compiled = process::Command::new("gcc")
        .args(words.split(' '))
        .args([&path, source])
        .status();
    assert!(compiled.is_ok_and(|status| status.success()), "gcc fails");
    path
}

/// The cases with the library.
struct Failing<'a> {
    maker: &'a mut Maker,
    library: String,
    sheets: Vec<Vec<u8>>,
}

impl Failing<'_> {
    /// Adds a case for each sheet: a run of a command with these settings for the library, of which
    /// comes what is wanted of it without them, changed so.
    fn case(&mut self, command: &Command, settings: &[String], change: impl Fn(Run) -> Run) {
        let library = format!("LD_PRELOAD={}", self.library);
        let start = [&["env".to_string(), library], settings].concat();
        for sheet in &self.sheets {
            let place = self.maker.place();
            let path = place.put(NAME, sheet);
            let run = change(self.maker.run(command, &path, NAME, sheet));
            let start = [&start[..], &run.start].concat();
            self.maker.case(place, vec![Run { start, ..run }]);
        }
    }

    /// The same, where nothing is printed, nothing changes, and one line is said.
    fn complaint(&mut self, command: &Command, settings: &[String], said: &str) {
        self.case(command, settings, |run| Run {
            wanted: complaint(said),
            changes: vec![],
            ..run
        });
    }

    /// Calls that fail before the file has another sheet: it stays as it is, and FILE.new is gone.
    fn before(&mut self) {
        for (calls, said) in READING {
            for command in readings().iter().chain(&additions()) {
                self.complaint(command, &[failing(calls)], &told((calls, said)));
            }
        }
        for command in &additions() {
            for (calls, said) in KEEPING {
                self.complaint(command, &[failing(calls)], &told((calls, said)));
            }
            for (calls, said) in WRITING {
                let settings = [failing(calls), short(RECORD + 1)];
                self.complaint(command, &settings, &told((calls, said)));
            }
            let settings = [failing("read 3 5"), short(RECORD)];
            self.complaint(command, &settings, &told(("read 3 5", NOT_READ)));
        }
    }

    /// Calls that fail after it: the line is printed, and something is said.
    fn after(&mut self) {
        for command in &additions() {
            for (calls, said) in FLUSHING {
                let (settings, said) = ([failing(calls)], told((calls, said)));
                self.case(command, &settings, |run| saying(run, &[&said]));
            }
        }
    }

    /// Closing that fails once what was written is on disk: the record is added, also where nothing
    /// reads standard error.
    fn closing(&mut self) {
        for command in &additions() {
            for calls in CLOSING {
                self.case(command, &[failing(calls)], |run| run);
                self.case(command, &[failing(calls)], unheard);
            }
        }
    }

    /// Calls that are interrupted: the record is added.
    fn interrupted(&mut self) {
        for command in &additions() {
            for calls in INTERRUPTED {
                self.case(command, &[failing(calls)], |run| run);
            }
        }
    }

    /// Calls that move fewer bytes than they are asked to: nothing is lost.
    fn short(&mut self) {
        for most in SHORT {
            for command in readings().iter().chain(&additions()) {
                self.case(command, &[short(most)], |run| run);
            }
        }
    }

    /// The calls in their order, where none fails: what is written is on disk before it has the
    /// file's name, and then the folder of that name.
    fn in_order(&mut self) {
        let settings = ["CALLED=yes".to_string()];
        for command in &additions() {
            self.case(command, &settings, |run| saying(run, &ORDER));
        }
        for command in ["check FILE", "list FILE", "at FILE 0"].map(command) {
            self.case(&command, &settings, |run| saying(run, &["open", "read"]));
        }
    }

    /// The same for a name without a slash.
    fn in_order_inside(&mut self) {
        let library = format!("LD_PRELOAD={}", self.library);
        for command in &additions() {
            let (place, sheet) = (self.maker.place(), &self.sheets[0]);
            place.put(NAME, sheet);
            let start = ["env", "-C", &place.folder, &library, "CALLED=yes"];
            let run = self.maker.run(command, NAME, NAME, sheet);
            let run = saying(run, &ORDER).started(&start);
            self.maker.case(place, vec![run]);
        }
    }

    /// FILE.new is given up and cannot be removed: that is said too, and it stays.
    fn not_removed(&mut self) {
        let (unlink, _) = REMOVING;
        for command in &additions() {
            for (calls, said) in UNWRITTEN.into_iter().chain(WRITTEN) {
                let settings = [failing(&format!("{calls} {unlink}"))];
                let whole = WRITTEN.contains(&(calls, said));
                let both = [told((calls, said)), told(REMOVING)];
                self.case(command, &settings, |run| {
                    let sheet = run.wanted.sheet.filter(|_| whole);
                    let run = Run {
                        wanted: complaint(""),
                        changes: vec![left_over(sheet.unwrap_or_default())],
                        ..run
                    };
                    saying(run, &both.each_ref().map(String::as_str))
                });
            }
        }
    }

    /// The same after a refusal.
    fn not_removed_refused(&mut self) {
        let refused = command("add FILE 0 0 5 01230123400000000400");
        let (unlink, _) = REMOVING;
        self.case(&refused, &[failing(unlink)], |run| {
            let changes = vec![left_over(vec![])];
            saying(Run { changes, ..run }, &[&told(REMOVING), &meaning(10)])
        });
    }

    /// FILE.new is given up, and nothing reads standard error.
    fn unheard(&mut self) {
        for (calls, said) in UNWRITTEN.into_iter().chain(WRITTEN) {
            for command in &additions() {
                self.case(command, &[failing(calls)], |run| {
                    unheard(Run {
                        wanted: complaint(said),
                        changes: vec![],
                        ..run
                    })
                });
            }
        }
    }
}

/// The setting by which these calls fail.
fn failing(calls: &str) -> String {
    format!("FAILING={calls}")
}

/// The setting by which at most so many bytes are moved.
fn short(most: usize) -> String {
    format!("SHORT={most}")
}

/// A file that a run leaves under the name of a new sheet.
fn left_over(bytes: Vec<u8>) -> (String, Thing) {
    (NEW.to_string(), Thing::File(bytes))
}

/// What is said where a call fails: the sentence, and what the system says of the error, which is the
/// last of the call's words.
fn told((call, sentence): (&str, &str)) -> String {
    let error = call.split(' ').next_back().expect("a word");
    failed(sentence, error.parse().expect("a number"))
}

/// The run, of which these lines are said.
fn saying(run: Run, sentences: &[&str]) -> Run {
    let sentences = sentences.iter().map(|line| line.to_string());
    let said = Said::Lines(sentences.collect());
    let wanted = Wanted { said, ..run.wanted };
    Run { wanted, ..run }
}

/// Files that cannot become longer than so many blocks: a longer sheet that does not fit is not kept.
fn full_disk(maker: &mut Maker) {
    for count in [0, 36, 1000, MOST - 1] {
        let sheet = sheet(count, &mut maker.random);
        let needed = (sheet.len() + RECORD).div_ceil(BLOCK);
        for blocks in [0, 1, needed - 1, needed] {
            for command in additions() {
                let place = maker.place();
                let path = place.put(NAME, &sheet);
                let said = failed(NOT_WRITTEN, TOO_LONG);
                let run = match blocks < needed {
                    true => command.run(&path, complaint(&said)),
                    false => maker.run(&command, &path, NAME, &sheet),
                };
                let start = ["env", &format!("BLOCKS={blocks}"), "sh", "-c", LIMITED];
                maker.case(place, vec![run.started(&start)]);
            }
        }
    }
}

/// Every case about calls that fail. The library is made in the folder.
pub fn all(maker: &mut Maker, folder: &str) {
    full_disk(maker);
    let library = library(folder);
    let sheets = [2, 300, MOST - 1].map(|count| sheet(count, &mut maker.random));
    let sheets = sheets.into();
    let mut failing = Failing {
        maker,
        library,
        sheets,
    };
    failing.before();
    failing.after();
    failing.closing();
    failing.interrupted();
    failing.short();
    failing.in_order();
    failing.in_order_inside();
    failing.not_removed();
    failing.not_removed_refused();
    failing.unheard();
}
