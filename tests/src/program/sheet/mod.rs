//! The test of the program for sheets: a second version of it, sheets and commands, files that are
//! not as they should be, system calls that fail, and runs, each in a folder of its own.

pub mod covers;
pub mod crowd;
pub mod failing;
pub mod files;
pub mod folder;
pub mod judge;
pub mod killed;
pub mod made;
pub mod names;
pub mod outputs;
pub mod permissions;
pub mod questions;
pub mod second;
pub mod sentences;
pub mod words;

use judge::Case;
use made::Maker;
use std::collections::HashSet;

/// The commands, and the refusals that each must be seen to give, 0 for none.
const NUMBERS: [(&str, &[u8]); 5] = [
    ("check", &[0, 1, 2, 6, 7, 8, 9, 10, 11]),
    ("list", &[0, 1, 2, 6, 7, 8, 9, 10, 11]),
    ("at", &[0, 1, 2, 6, 7, 8, 9, 10, 11, 12]),
    ("find", &[0, 1, 2, 6, 7, 8, 9, 10, 11, 12]),
    ("add", &[0, 1, 2, 4, 5, 6, 7, 8, 9, 10, 11, 15, 16, 17]),
];

/// The number of the refusal that is printed, 0 if there is none.
fn number(printed: &str) -> u8 {
    let words: Vec<&str> = printed.split(' ').collect();
    match words[..] {
        ["R", number, _] => number.parse().expect("a number"),
        _ => 0,
    }
}

/// Sees to it that every command is refused in every way that it can be.
fn complete(cases: &[Case]) {
    let runs = cases.iter().flat_map(|case| &case.runs);
    let ways = runs.map(|run| (run.words.first(), number(&run.wanted.printed)));
    let ways: HashSet<_> = ways.collect();
    for (command, numbers) in NUMBERS {
        for number in numbers {
            let way = (Some(&command.to_string()), *number);
            assert!(ways.contains(&way), "{command} never gives {number}");
        }
    }
}

/// Every case: sheets right and damaged, numbers and words, covers, files, permissions, names, outputs
/// and failing calls, for the program at a path. Files are made in the folder.
pub fn all(program: &str, folder: &str, seed: u64) -> Vec<Case> {
    let mut maker = Maker::new(folder, seed);
    questions::all(&mut maker);
    words::all(&mut maker);
    covers::all(&mut maker);
    files::all(&mut maker);
    permissions::all(&mut maker, program);
    names::all(&mut maker);
    outputs::all(&mut maker);
    failing::all(&mut maker, folder);
    complete(&maker.cases);
    maker.cases
}
