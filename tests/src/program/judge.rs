//! Runs, each held to what it must leave.

use crate::program::run::{run, Input, Left, Output, LATE};
use std::sync::atomic::{AtomicUsize, Ordering};

/// How many runs are under way at a time.
const THREADS: usize = 2;

/// A run, with these arguments, and what it must leave.
pub struct Case {
    pub words: Vec<String>,
    pub input: Input,
    pub output: Output,
    pub wanted: Left,
}

/// A run without arguments, whose output can be written, that must leave this.
pub fn read(input: Input, wanted: Left) -> Case {
    Case {
        words: vec![],
        input,
        output: Output::Pipe,
        wanted,
    }
}

/// The most bytes of an output that are shown.
const SHOWN: usize = 1000;

/// The lines of an output, each with its end.
fn lines(left: &Left) -> Vec<String> {
    let lines = left.output.split_inclusive(|byte| *byte == b'\n');
    lines.map(|line| line.escape_ascii().to_string()).collect()
}

/// The first line of two outputs that is not the same, counted from 0, for a reader of a difference.
fn first_line(left: &Left, wanted: &Left) -> String {
    let (is, must) = (lines(left), lines(wanted));
    let same = is.iter().zip(&must).take_while(|(is, must)| is == must);
    let place = same.count();
    if is.len().max(must.len()) == place {
        return "the lines are the same".to_string();
    }
    let [is, must] = [is, must].map(|lines| lines.get(place).cloned().unwrap_or_default());
    format!("line {place} is \"{is}\", wanted: \"{must}\"")
}

/// What a run left, for a reader of a difference.
pub fn described(left: &Left) -> String {
    let text = |bytes: &[u8]| bytes[..bytes.len().min(SHOWN)].escape_ascii().to_string();
    let end = match left.end {
        LATE => "no end".to_string(),
        0.. => format!("status {}", left.end),
        signal => format!("signal {}", -signal),
    };
    let (output, errors) = (text(&left.output), text(&left.errors));
    format!("printed \"{output}\", on standard error \"{errors}\", {end}")
}

/// Pieces, for a reader of a difference: how many bytes they have, and the first of each.
fn parts(pieces: &[Vec<u8>]) -> String {
    let part = |piece: &Vec<u8>| format!("{:02X?}", &piece[..piece.len().min(66)]);
    let parts: Vec<String> = pieces.iter().map(part).collect();
    let length: usize = pieces.iter().map(Vec::len).sum();
    format!("{length} bytes, {}", parts.join(" "))
}

/// The input, for a reader of a difference: the first bytes of what is long.
pub fn asked(input: &Input) -> String {
    match input {
        Input::Pieces(pieces, pause) => format!("{}, pauses of {pause:?}", parts(pieces)),
        Input::Broken(bytes) => format!("{}, then broken", parts(std::slice::from_ref(bytes))),
        _ => format!("{input:?}"),
    }
}

/// Runs a case; a difference ends everything.
fn judge(program: &str, case: &Case) {
    let left = run(program, &case.words, &case.input, &case.output);
    let left = left.unwrap_or_else(|wrong| panic!("{program} is not run: {wrong}"));
    if left != case.wanted {
        let (words, input, output) = (&case.words, asked(&case.input), &case.output);
        let line = first_line(&left, &case.wanted);
        let (left, wanted) = (described(&left), described(&case.wanted));
        println!("differ: arguments {words:?}, input {input}, output {output:?}");
        println!("  it {left}\n  wanted: {wanted}\n  {line}");
        std::process::exit(1);
    }
}

/// Judges every case, some at a time.
pub fn each<T: Sync>(cases: &[T], judge: impl Fn(&T) + Sync) {
    let next = AtomicUsize::new(0);
    let work = || {
        while let Some(case) = cases.get(next.fetch_add(1, Ordering::Relaxed)) {
            judge(case);
        }
    };
    std::thread::scope(|scope| {
        for _ in 0..THREADS {
            scope.spawn(work);
        }
    });
}

/// Runs every case, and prints how many there were under the name of the comparison.
pub fn all(name: &str, program: &str, cases: &[Case]) {
    each(cases, |case| judge(program, case));
    println!("{name}: {} runs, 0 differ", cases.len());
}
