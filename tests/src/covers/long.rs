//! Covers with many inputs, long names and long texts, with the outcome that each must have.

use crate::covers::cases::Case;
use crate::covers::made;
use crate::random::Random;
use crate::table::table_of;

/// How many inputs heads have that are too wide; some are few once cut to 8 or to 16 bits.
const WIDE: [usize; 16] = [
    10, 11, 12, 13, 15, 16, 64, 255, 256, 257, 264, 265, 266, 300, 65536, 65545,
];

/// The bytes of a long name, and of a long text.
const LONG_NAME: usize = 5000;
const LONG_TEXT: usize = 1 << 20;

/// The lengths of names of one byte alone; some are the same once cut to 8 or to 16 bits.
const NESTED: [[usize; 10]; 3] = [
    [1, 2, 3, 4, 5, 6, 7, 8, 9, 10],
    [10, 9, 8, 7, 6, 5, 4, 3, 2, 1],
    [1, 257, 2, 258, 513, 514, 65537, 65793, 131073, 256],
];

/// A head with this many inputs, all names different.
fn head(inputs: usize) -> Vec<u8> {
    let names = (0..=inputs).map(|place| format!(" s{place}"));
    let head: String = [".names".to_string()].into_iter().chain(names).collect();
    head.into_bytes()
}

/// The end of a line, and a line of so many open marks.
fn line(marks: usize, output: &str) -> Vec<u8> {
    [&b"\n"[..], &vec![b'-'; marks], b" ", output.as_bytes()].concat()
}

/// Heads that are too wide: with right lines 1, a repeated name and both outputs included; with one
/// wrong line 15, also where its length is right in fewer bits.
pub fn wide() -> Vec<Case> {
    let mut cases = vec![];
    for inputs in WIDE {
        let (head, right) = (head(inputs), line(inputs, "1"));
        let again = [&head, &b" s0"[..], &line(inputs + 1, "0")].concat();
        let both = [&head, &right[..], &line(inputs, "0")].concat();
        cases.push((head.clone(), Err(1)));
        cases.push(([&head, &right[..], &right].concat(), Err(1)));
        cases.extend([(again, Err(1)), (both, Err(1))]);
        let cut = [0, 1, inputs % 256, inputs % 65536];
        let beside = [inputs - 1, inputs + 1, inputs + 256];
        let lengths = cut.into_iter().chain(beside);
        for marks in lengths.filter(|marks| *marks != inputs) {
            let wrong = line(marks, "1");
            cases.push(([&head, &wrong[..]].concat(), Err(15)));
            cases.push(([&head, &right[..], &wrong].concat(), Err(15)));
        }
        let outputs = ["", "2", "-", "1 1"].map(|output| line(inputs, output));
        cases.extend(outputs.map(|wrong| ([&head, &right[..], &wrong].concat(), Err(15))));
    }
    cases
}

/// Heads of up to nine inputs with a line that has the right length in 8 or in 16 bits.
pub fn long_lines() -> Vec<Case> {
    let mut cases = vec![];
    for inputs in 0..10 {
        for more in [256, 512, 65536] {
            let wrong = line(inputs + more, "1");
            cases.push(([head(inputs), wrong].concat(), Err(15)));
        }
    }
    cases
}

/// Ten names of `length` bytes that differ in the byte at a place alone; with `same`, the names at
/// these two places do not differ.
fn alike(length: usize, place: usize, same: Option<[u8; 2]>) -> Vec<u8> {
    let mut text = b".names".to_vec();
    for k in 0..10 {
        let shown = match same {
            Some([one, again]) if again == k => one,
            _ => k,
        };
        let mut name = vec![b'n'; length];
        name[place] = b'0' + shown;
        text.push(b' ');
        text.extend(name);
    }
    text
}

/// Ten long names that differ in one byte, or of which two are the same; and names of which each is
/// the start of every longer one.
pub fn names() -> Vec<Case> {
    let mut cases = vec![];
    let read = || Ok((9, vec![0; 64]));
    for place in [0, 1, LONG_NAME / 2, LONG_NAME - 2, LONG_NAME - 1] {
        cases.push((alike(LONG_NAME, place, None), read()));
        for same in [[0, 1], [0, 9], [4, 8], [8, 9]] {
            cases.push((alike(LONG_NAME, place, Some(same)), Err(16)));
        }
    }
    for lengths in NESTED {
        let names = lengths.map(|length| vec![b'n'; length]);
        cases.push(([&b".names "[..], &names.join(&b' ')].concat(), read()));
    }
    cases
}

/// As many copies of some bytes as a long text has room for.
fn many(bytes: &str) -> Vec<u8> {
    bytes.repeat(LONG_TEXT / bytes.len()).into_bytes()
}

/// A long comment of any bytes, and the line's end.
fn long_comment(random: &mut Random) -> Vec<u8> {
    let mut comment = vec![b'#'];
    while comment.len() < LONG_TEXT {
        comment.extend(made::comment(random));
    }
    comment.push(b'\n');
    comment
}

/// Texts of a mebibyte and more: cover lines, then what changes their outcome; comments, blanks and
/// empty lines; and a name.
pub fn texts(random: &mut Random) -> Vec<Case> {
    let head = b".names a b c d e f g h i y\n";
    let with = |parts: &[&[u8]]| [&[&head[..]], parts].concat().concat();
    let read = |rule: fn(usize) -> bool| Ok((9, table_of(9, rule)));
    let upper = || read(|row| row >= 256);
    let lines = many("--------1 1\n");
    let comment = long_comment(random);
    let name = many("n");
    let twice = |more: &[u8]| [b".names ", &name[..], b" ", &name, more].concat();
    vec![
        (with(&[&lines]), upper()),
        (with(&[&many("--------1 0\n")]), read(|row| row < 256)),
        (with(&[&lines, b"--------- 1"]), read(|_| true)),
        (with(&[&lines, b"--------1 0"]), Err(17)),
        (with(&[&lines, b"--------1 "]), Err(15)),
        (with(&[&lines, b".end"]), Err(15)),
        (with(&[&lines, b"\r"]), Err(15)),
        (with(&[&comment, b"--------1 1"]), upper()),
        ([&comment, &with(&[b"--------1 1"])[..]].concat(), upper()),
        (with(&[&comment, b"-"]), Err(15)),
        (with(&[&many(" \t"), b"--------1 1"]), upper()),
        (with(&[&many("\r\n"), b"--------1 1"]), upper()),
        (with(&[b"--------1", &many("\t"), b"1"]), upper()),
        (comment, Err(15)),
        (many("-"), Err(15)),
        (many("\r"), Err(15)),
        (many("\n"), Err(15)),
        ([b".names ", &many("a ")[..]].concat(), Err(1)),
        (with(&[&many("1 ")]), Err(15)),
        (with(&[&many(" ")]), Ok((9, vec![0; 64]))),
        (twice(b"z"), Ok((1, vec![0]))),
        (twice(b""), Err(16)),
    ]
}
