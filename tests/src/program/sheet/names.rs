//! Names of files: unusual ones, and the longest.

use crate::program::cover::padded;
use crate::program::sheet::files::{additions, commands, fails, readings, two, works};
use crate::program::sheet::judge::Run;
use crate::program::sheet::made::{Maker, Place, NAME};
use crate::program::sheet::second::{complaint, LONGEST_WORD};
use crate::program::sheet::sentences::{LONG_NAME, NOT_MADE, NOT_OPENED};

/// The length of the longest path of a file, and of the longest to which a record can be added.
const LONGEST_PATH: usize = 4095;
const LONGEST_ADDED: usize = LONGEST_PATH - ".new".len();

/// The same of a name in a folder.
const LONGEST_NAME: usize = 255;

/// Names in a folder that are unusual.
const NAMES: [&str; 9] = [
    "SECRET a b",
    " SECRET ",
    "-SECRET",
    ".SECRET",
    "SECRET.new",
    "SECRET\n",
    "SECRET-\u{E9}\u{2603}",
    "SECRET'\"$0;*",
    "SECRET%s%n",
];

/// A run in the folder of its case, so that a name without a slash is there.
fn inside(run: Run, place: &Place) -> Run {
    run.started(&["env", "-C", &place.folder])
}

/// Names without a slash, no name at all, and unusual names.
fn unusual(maker: &mut Maker) {
    for command in commands() {
        for name in [NAME, "SECRET.new"] {
            let place = maker.place();
            place.put(name, &two());
            let run = inside(maker.run(&command, name, name, &two()), &place);
            maker.case(place, vec![run]);
        }
        let place = maker.place();
        let run = inside(command.run("", complaint(NOT_OPENED)), &place);
        maker.case(place, vec![run]);
    }
    for name in NAMES {
        works(maker, commands(), |place| place.put(name, &two()), name);
    }
}

/// Paths of so many bytes: one that leads to the sheet, and one that the system refuses.
fn right(place: &Place, length: usize) -> String {
    padded(&place.put(NAME, &two()), length)
}

fn wrong(place: &Place, length: usize) -> String {
    place.path(&"S".repeat(length - place.folder.len() - 1))
}

/// The longest paths, and longer ones: what the system refuses, and what is not asked of it.
fn long_paths(maker: &mut Maker) {
    for length in [LONGEST_ADDED - 1, LONGEST_ADDED] {
        works(maker, commands(), |place| right(place, length), NAME);
        fails(maker, additions(), |place| wrong(place, length), NOT_MADE);
    }
    for length in [LONGEST_ADDED + 1, LONGEST_PATH] {
        works(maker, readings(), |place| right(place, length), NAME);
    }
    for path in [right, wrong] {
        for length in LONGEST_ADDED + 1..=LONGEST_WORD {
            fails(maker, additions(), |place| path(place, length), LONG_NAME);
        }
        let at_limit = |place: &Place| path(place, LONGEST_WORD);
        fails(maker, readings(), at_limit, NOT_OPENED);
        for length in [LONGEST_WORD + 1, LONGEST_WORD + 2, 5000, 70_000] {
            fails(maker, commands(), |place| path(place, length), LONG_NAME);
        }
    }
}

/// The longest names in a folder, and longer ones.
fn long_names(maker: &mut Maker) {
    for length in [LONGEST_NAME - 4, LONGEST_NAME - 3, LONGEST_NAME] {
        let name = "S".repeat(length);
        let put = |place: &Place| place.put(&name, &two());
        works(maker, readings(), put, &name);
        match length + ".new".len() {
            ..=LONGEST_NAME => works(maker, additions(), put, &name),
            _ => fails(maker, additions(), put, NOT_MADE),
        }
    }
    let longer = |place: &Place| place.path(&"S".repeat(LONGEST_NAME + 1));
    fails(maker, readings(), longer, NOT_OPENED);
    fails(maker, additions(), longer, NOT_MADE);
}

/// Every case about names.
pub fn all(maker: &mut Maker) {
    unusual(maker);
    long_paths(maker);
    long_names(maker);
}
