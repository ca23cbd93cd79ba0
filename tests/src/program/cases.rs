//! What the program is given, and what it must print.

use crate::document;
use crate::hexadecimal::hexadecimal;
use crate::program::judge::Case;
use crate::program::run::{left, whole, Input, Output};
use crate::table::{refusal, table_length};
use crate::vectors::Line;
use std::time::Duration;

/// What is said on standard error.
const NOT_READ: &str = "drawmitten: standard input could not be read\n";
const NOT_WRITTEN: &str = "drawmitten: standard output could not be written\n";

/// How long the pauses are, between bytes and where something might give up.
const SHORT: Duration = Duration::from_millis(1);
const LONG: Duration = Duration::from_millis(60);

/// A run that ends with status 0 and leaves these texts.
fn case(input: Input, output: Output, printed: &str, errors: &str) -> Case {
    Case {
        words: vec![],
        input,
        output,
        wanted: left(printed, errors),
    }
}

/// The input of a table.
fn asked(n: u8, table: &[u8]) -> Vec<u8> {
    [&[n], table].concat()
}

/// A run on these bytes through a pipe, and the line without its line feed.
fn plain(bytes: Vec<u8>, line: &str) -> Case {
    pieces(vec![bytes], Duration::ZERO, line)
}

/// A run on these pieces through a pipe, and the line without its line feed.
fn pieces(pieces: Vec<Vec<u8>>, pause: Duration, line: &str) -> Case {
    let input = Input::Pieces(pieces, pause);
    case(input, Output::Pipe, &format!("{line}\n"), "")
}

/// The examples of document 01.
fn examples() -> Vec<Case> {
    let matched = document::matches().map(|one| {
        let line = format!("{} {}", one.kind, hexadecimal(&one.block));
        plain(asked(one.n, &one.table), &line)
    });
    let refused = document::refused_tables();
    let refused = refused.map(|(n, table, number)| plain(asked(n, &table), &format!("R {number}")));
    matched.into_iter().chain(refused).collect()
}

/// A run on bytes that are no table of n inputs.
fn no_table(n: u8, table: &[u8]) -> Case {
    let number = refusal(n, table).expect("a refusal before the search");
    plain(asked(n, table), &format!("R {number}"))
}

/// Tables of the wrong length, the longest far beyond what the program keeps.
fn wrong_lengths() -> Vec<Case> {
    let mut cases = vec![plain(vec![], "R 2")];
    for n in 0..=9 {
        let right = table_length(n as usize);
        for length in [0, right - 1, right + 1, 63, 64, 65, 66, 999, 999_999] {
            if length != right {
                cases.push(no_table(n, &vec![0x5A; length]));
            }
        }
    }
    cases
}

/// Every n above 9, with tables of many lengths.
fn wrong_numbers() -> Vec<Case> {
    let each = (10..=255).map(|n: u8| no_table(n, &vec![0xA5; n as usize % 70]));
    let mut cases: Vec<Case> = each.collect();
    for n in [10, 16, 128, 255] {
        for length in [0, 1, 63, 64, 65, 66, 128, 999, 999_999] {
            cases.push(no_table(n, &vec![0; length]));
        }
    }
    cases
}

/// Tables with some of their padding set.
fn wrong_padding() -> Vec<Case> {
    let mut cases = vec![];
    for (n, bits) in [(0, 7), (1, 6), (2, 4)] {
        let each = (0..bits).map(|bit| 1 << bit);
        cases.extend(each.chain([0xFF]).map(|byte| no_table(n, &[byte])));
    }
    cases
}

/// Tables in pieces: the first of each n of the vectors byte by byte, and split before the table;
/// and a byte too many that comes late.
fn in_pieces(vectors: &[Line]) -> Vec<Case> {
    let mut cases = vec![];
    for n in 0..=9 {
        let line = vectors.iter().find(|line| line.n == n);
        let line = line.expect("a vector of each n");
        let whole = asked(n, &line.table);
        let bytes = whole.iter().map(|byte| vec![*byte]).collect();
        cases.push(pieces(bytes, SHORT, &line.said));
        cases.push(pieces(vec![vec![n], line.table.clone()], LONG, &line.said));
        cases.push(pieces(vec![whole, vec![0]], LONG, "R 2"));
    }
    cases
}

/// Input that never ends, that cannot be read, and that breaks off; output that cannot be written.
fn failures() -> Vec<Case> {
    let right = vec![1, 0x40];
    let fails = |input| case(input, Output::Pipe, "", NOT_READ);
    let unwritten = |bytes: &[u8], output| case(whole(bytes), output, "", NOT_WRITTEN);
    vec![
        case(Input::Path("/dev/zero"), Output::Pipe, "R 2\n", ""),
        case(Input::Path("/dev/null"), Output::Pipe, "R 2\n", ""),
        fails(Input::Path("/")),
        fails(Input::Unreadable),
        fails(Input::Closed),
        fails(Input::Broken(vec![])),
        fails(Input::Broken(vec![1])),
        fails(Input::Broken(right.clone())),
        unwritten(&right, Output::Full),
        unwritten(&[], Output::Full),
        unwritten(&right, Output::Closed),
        case(Input::Closed, Output::Closed, "", NOT_READ),
    ]
}

/// Every case: document 01, the vectors, faults of the input and of its reading.
pub fn all(vectors: &[Line]) -> Vec<Case> {
    let mut cases = in_pieces(vectors);
    cases.extend(examples());
    cases.extend(wrong_lengths());
    cases.extend(wrong_numbers());
    cases.extend(wrong_padding());
    cases.extend(failures());
    let vector = |line: &Line| plain(asked(line.n, &line.table), &line.said);
    cases.extend(vectors.iter().map(vector));
    cases
}
