//! What the program for builds is given, and what it must print.

use crate::batches::cases;
use crate::batches::groups::{damaged_build, of_one_byte_each};
use crate::batches::made::{self, build, shuffle, some, zero, Request, Stock};
use crate::batches::second::{requests, Outcome, Slot};
use crate::hexadecimal::hexadecimal;
use crate::program::judge::{read, Case};
use crate::program::run::{left, line_of, whole, Input, Left, Output, BLOCK};
use crate::random::Random;
use crate::vectors::Line;
use std::collections::HashMap;
use std::time::Duration;

/// What is said on standard error.
const NOT_READ: &str = "build: standard input could not be read\n";
const NOT_WRITTEN: &str = "build: standard output could not be written\n";
const TOO_LONG: &str = "build: the build is longer than 65,536 bytes\n";
const MEANING: &str =
    "build: 14 means that a request has n above 9, or that its table runs past the end\n";

/// The line for a build that is refused, and the length of the longest that is read.
const REFUSED: &str = "R 14\n";
const LONGEST: usize = 65_536;

/// As many requests of nine inputs as the longest build holds.
const OF_NINE: usize = 1008;

/// How many blocks are taken of the 1,600 that the most lines fill, and what is said then.
const LIMITS: [(usize, &str); 4] = [
    (1, NOT_WRITTEN),
    (1000, NOT_WRITTEN),
    (1599, NOT_WRITTEN),
    (1600, ""),
];

/// How long the pauses are, between pieces and where something might give up.
const SHORT: Duration = Duration::from_millis(1);
const LONG: Duration = Duration::from_millis(60);

/// How many times the vectors are put in another order, and how many builds are damaged.
const ORDERS: usize = 3;
const DAMAGED: usize = 400;

/// The lines that the program for tables prints, one run for each request.
struct Lines<'a> {
    drawmitten: &'a str,
    known: HashMap<Vec<u8>, String>,
}

impl Lines<'_> {
    /// The line for a request, with its line feed.
    fn line(&mut self, request: &[u8]) -> String {
        let run = || line_of(self.drawmitten, request[0], &request[1..]) + "\n";
        self.known
            .entry(request.to_vec())
            .or_insert_with(run)
            .clone()
    }

    /// What a run must leave that is given this build.
    fn wanted(&mut self, build: &[u8]) -> Left {
        let Some(requests) = requests(build) else {
            return left(REFUSED, MEANING);
        };
        let lines = requests.into_iter().map(|request| self.line(request));
        left(&lines.collect::<String>(), "")
    }

    /// A run on a build, in one piece.
    fn plain(&mut self, build: &[u8]) -> Case {
        read(whole(build), self.wanted(build))
    }

    /// A run on a build in one piece, of which the outcome is known: what is wanted tells it too.
    fn known(&mut self, build: &[u8], outcome: &Outcome) -> Case {
        let case = self.plain(build);
        let shown = &build[..build.len().min(80)];
        assert!(tells(&case.wanted, outcome), "{shown:02X?}");
        case
    }

    /// A run on a build in pieces, with a pause before each.
    fn pieces(&mut self, pieces: &[&[u8]], pause: Duration) -> Case {
        let wanted = self.wanted(&pieces.concat());
        let pieces = pieces.iter().map(|piece| piece.to_vec()).collect();
        read(Input::Pieces(pieces, pause), wanted)
    }
}

/// How the line of a slot ends: with its refusal, or with its ten bytes.
fn told(slot: &Slot) -> String {
    match slot[0] {
        0 => format!(" {}\n", hexadecimal(&slot[1..])),
        number => format!("R {number}\n"),
    }
}

/// Whether what a run must leave is the refusal of a build, or has a line for each of its slots, as
/// the outcome has it.
fn tells(wanted: &Left, outcome: &Outcome) -> bool {
    let Ok(slots) = outcome else {
        return *wanted == left(REFUSED, MEANING);
    };
    let lines = wanted.output.split_inclusive(|byte| *byte == b'\n');
    let lines: Vec<&[u8]> = lines.collect();
    let mut pairs = lines.iter().zip(slots);
    lines.len() == slots.len() && pairs.all(|(line, slot)| line.ends_with(told(slot).as_bytes()))
}

/// The line of each vector is the one that the vectors tell.
fn vectors_told(lines: &mut Lines, vectors: &[Line]) {
    for Line { n, table, said, .. } in vectors {
        let line = lines.line(&[&[*n], &table[..]].concat());
        assert_eq!(line, format!("{said}\n"), "n {n}, table {table:02X?}");
    }
}

/// Builds known by hand, every table of one byte, and the vectors and examples in any order.
fn in_one_piece(lines: &mut Lines, stock: &Stock, random: &mut Random) -> Vec<Case> {
    let mut builds = cases::all();
    builds.push(build(&of_one_byte_each(stock)));
    let mut requests = stock.all.clone();
    for _ in 0..ORDERS {
        shuffle(&mut requests, random);
        builds.push(build(&requests));
        builds.extend(requests.chunks(1 + random.below(60)).map(build));
    }
    let known = |(build, outcome): &made::Case| lines.known(build, outcome);
    builds.iter().map(known).collect()
}

/// Builds damaged in up to three ways.
fn damaged(lines: &mut Lines, stock: &Stock, random: &mut Random) -> Vec<Case> {
    let builds = (0..DAMAGED).map(|_| damaged_build(stock, random));
    builds.map(|build| lines.plain(&build)).collect()
}

/// A right build of so many bytes that begins with these requests and goes on with short ones, each
/// a match or not as chance has it.
fn filled(begun: &[Request], length: usize, random: &mut Random) -> Vec<u8> {
    let (mut bytes, _) = build(begun);
    if (length - bytes.len()) % 2 == 1 {
        bytes.extend(zero(4).bytes);
    }
    while bytes.len() < length {
        bytes.extend([random.below(3) as u8, random.bits() as u8]);
    }
    bytes
}

/// Builds about as long as the longest, in which what the last byte says counts.
fn about_longest(nine: &[Request], random: &mut Random) -> Vec<Vec<u8>> {
    let mut builds = vec![
        build(nine).0,
        vec![0; LONGEST],
        vec![10; LONGEST],
        vec![9; LONGEST],
    ];
    for length in [LONGEST - 1, LONGEST] {
        let mut broken = filled(nine, length - 1, random);
        broken.push(random.one(&[0, 9, 10, 255]));
        let right = [filled(nine, length, random), filled(&[], length, random)];
        builds.extend(right.into_iter().chain([broken]));
    }
    builds
}

/// Builds longer than the longest: one byte more is too much, whether the build is right or not.
fn too_long(nine: &[Request], random: &mut Random) -> Vec<Case> {
    let mut cases = vec![];
    for length in [LONGEST + 1, LONGEST + 2, 3 * LONGEST] {
        let long = [
            filled(nine, length, random),
            vec![0; length],
            vec![255; length],
        ];
        cases.extend(long.map(|build| read(whole(&build), left("", TOO_LONG))));
    }
    cases
}

/// The longest builds, each in one piece and in many, and those that are longer.
fn lengths(lines: &mut Lines, stock: &Stock, random: &mut Random) -> Vec<Case> {
    let nine = some(&stock.nine, OF_NINE, random);
    let mut cases = vec![];
    for build in about_longest(&nine, random) {
        cases.push(lines.plain(&build));
        cases.push(lines.pieces(&build.chunks(4093).collect::<Vec<_>>(), SHORT));
    }
    cases.extend(too_long(&nine, random));
    cases
}

/// Builds in pieces: byte by byte, between n and its table, and with an end that comes late.
fn in_pieces(lines: &mut Lines) -> Vec<Case> {
    let (build, _) = build(&made::of_document());
    let bytes: Vec<&[u8]> = build.chunks(1).collect();
    let mut cases = vec![lines.pieces(&bytes, SHORT)];
    for place in [1, 2, 3, build.len() - 1] {
        let (before, after) = build.split_at(place);
        cases.push(lines.pieces(&[before, after], LONG));
        cases.push(lines.pieces(&[before, after, &[0]], LONG));
        cases.push(lines.pieces(&[before, after, &[1, 0x40]], LONG));
    }
    cases
}

/// Input that is empty, that never ends, that cannot be read, and that breaks off; and arguments,
/// which nothing is asked of.
fn failures(lines: &mut Lines, random: &mut Random) -> Vec<Case> {
    let unread = |input| read(input, left("", NOT_READ));
    let mut cases = vec![
        read(Input::Pieces(vec![], LONG), left("", "")),
        read(Input::Path("/dev/null"), left("", "")),
        read(Input::Path("/dev/zero"), left("", TOO_LONG)),
        unread(Input::Path("/")),
        unread(Input::Unreadable),
        unread(Input::Closed),
        unread(Input::Broken(filled(&[], LONGEST, random))),
    ];
    let (build, _) = build(&made::of_document());
    let lengths = [0, 1, 2, 3, build.len() - 1, build.len()];
    cases.extend(lengths.map(|length| unread(Input::Broken(build[..length].to_vec()))));
    cases.extend([vec![10], vec![1, 0x40, 255]].map(|wrong| unread(Input::Broken(wrong))));
    for words in [&["x"][..], &["", "--help"]] {
        cases.push(Case {
            words: words.iter().map(|word| word.to_string()).collect(),
            ..lines.plain(&build)
        });
    }
    cases
}

/// Output that cannot be written: what a refusal means is said all the same. Where there is no line,
/// nothing has to be written.
fn unwritten(stock: &Stock) -> Vec<Case> {
    let refused = format!("{NOT_WRITTEN}{MEANING}");
    let given = [
        (whole(&[1, 0x40]), NOT_WRITTEN),
        (whole(&build(&stock.all).0), NOT_WRITTEN),
        (whole(&[1, 0x40, 10]), &refused),
        (whole(&[]), ""),
        (whole(&vec![0; LONGEST + 1]), TOO_LONG),
        (Input::Broken(vec![1, 0x40]), NOT_READ),
        (Input::Closed, NOT_READ),
    ];
    let mut cases = vec![];
    for (input, errors) in given {
        for output in [Output::Full, Output::Closed] {
            cases.push(Case {
                output,
                ..read(input.clone(), left("", errors))
            });
        }
    }
    cases
}

/// Output that takes the first bytes of the most lines there can be, and then fails: these are
/// written. Where it takes all of them, nothing is said.
fn limited(lines: &mut Lines) -> Vec<Case> {
    let build = vec![0; LONGEST];
    let printed = lines.wanted(&build).output;
    let case = |(blocks, said)| {
        let wanted = Left {
            output: printed[..BLOCK * blocks].to_vec(),
            ..left("", said)
        };
        Case {
            output: Output::Limited(blocks),
            ..read(whole(&build), wanted)
        }
    };
    LIMITS.map(case).into()
}

/// Every case: builds of the vectors and of document 01, damaged builds, the longest, and faults of
/// reading and of writing.
pub fn all(drawmitten: &str, vectors: &[Line], seed: u64) -> Vec<Case> {
    let (stock, mut random) = (Stock::of(vectors), Random(seed));
    let known = HashMap::new();
    let mut lines = Lines { drawmitten, known };
    vectors_told(&mut lines, vectors);
    let mut cases = in_one_piece(&mut lines, &stock, &mut random);
    cases.extend(damaged(&mut lines, &stock, &mut random));
    cases.extend(lengths(&mut lines, &stock, &mut random));
    cases.extend(in_pieces(&mut lines));
    cases.extend(failures(&mut lines, &mut random));
    cases.extend(unwritten(&stock));
    cases.extend(limited(&mut lines));
    cases
}
