//! Runs of the program for sheets, each held to what it must leave: both outputs, and every name in
//! its folder.

use crate::program::judge::{asked, described, each};
use crate::program::run::{run, Input, Left, Output};
use crate::program::sheet::folder::{difference, things, Thing, Things};
use crate::program::sheet::second::{Said, Wanted};
use crate::program::sheet::sentences::{is_said, HELP};
use std::fs;

/// What nothing that is printed or said may have in it: names of files and of signals have it.
pub const SECRET: &str = "SECRET";

/// A run: the command that starts the program, if there is one, and the program's own words.
pub struct Run {
    pub start: Vec<String>,
    pub words: Vec<String>,
    pub input: Input,
    pub output: Output,
    pub wanted: Wanted,
    /// The names in the folder under which something else stands afterwards.
    pub changes: Vec<(String, Thing)>,
}

/// A folder, and runs one after another in it.
pub struct Case {
    pub folder: String,
    pub runs: Vec<Run>,
}

/// Whether standard error holds what must be said.
fn tells(errors: &[u8], said: &Said) -> bool {
    match said {
        Said::Help => errors == HELP.as_bytes(),
        Said::Lines(sentences) => {
            let lines: Vec<&[u8]> = errors.split_inclusive(|byte| *byte == b'\n').collect();
            let mut pairs = lines.iter().zip(sentences);
            lines.len() == sentences.len() && pairs.all(|(line, said)| is_said(line, said))
        }
    }
}

/// Whether bytes have what nothing may have in it.
fn betrays(bytes: &[u8]) -> bool {
    let mut parts = bytes.windows(SECRET.len());
    parts.any(|part| part == SECRET.as_bytes())
}

/// Whether a run left what it must, on both outputs and with status 0.
fn right(left: &Left, wanted: &Wanted) -> bool {
    let secret = betrays(&left.output) || betrays(&left.errors);
    let printed = left.output == wanted.printed.as_bytes();
    printed && left.end == 0 && !secret && tells(&left.errors, &wanted.said)
}

/// Runs the program.
fn left_by(program: &str, one: &Run) -> Left {
    let mut command = one.start.clone();
    command.push(program.to_string());
    command.extend(one.words.iter().cloned());
    let left = run(&command[0], &command[1..], &one.input, &one.output);
    left.unwrap_or_else(|wrong| panic!("{program} is not run: {wrong}"))
}

/// Words, for a reader of a difference: the first bytes of those that are long.
fn shown(words: &[String]) -> Vec<String> {
    let cut = |word: &String| word.chars().take(200).collect();
    words.iter().map(cut).collect()
}

/// What must stand in the folder after a run, by what stood there before.
fn changed(mut before: Things, one: &Run) -> Things {
    before.extend(one.changes.iter().cloned());
    before
}

/// Tells of a difference and ends everything.
fn differ(one: &Run, number: usize, left: &Left, files: Option<String>, repeat: &str) -> ! {
    let (start, words) = (shown(&one.start), shown(&one.words));
    let input = asked(&one.input);
    println!("differ: {start:?} arguments {words:?}, input {input}, run {number} in its folder");
    println!("  it {}", described(left));
    let Wanted { printed, said, .. } = &one.wanted;
    let printed: String = printed.chars().take(1000).collect();
    println!("  wanted: printed {printed:?}, on standard error {said:?}, status 0");
    println!("  {}", files.unwrap_or("the folder is right".to_string()));
    println!("  repeat: {repeat}");
    std::process::exit(1);
}

/// Runs a case; a difference ends everything.
fn judge(program: &str, case: &Case, repeat: &str) {
    let mut before = things(&case.folder);
    for (number, one) in case.runs.iter().enumerate() {
        let left = left_by(program, one);
        let wanted = changed(before, one);
        let files = difference(&things(&case.folder), &wanted);
        if files.is_some() || !right(&left, &one.wanted) {
            differ(one, number, &left, files, repeat);
        }
        before = wanted;
    }
    fs::remove_dir_all(&case.folder).expect("the folder is removed");
}

/// Runs every case, and prints how many runs there were.
pub fn all(program: &str, cases: &[Case], repeat: &str) {
    each(cases, |case| judge(program, case, repeat));
    let runs: usize = cases.iter().map(|case| case.runs.len()).sum();
    println!("sheet_program: {runs} runs, 0 differ");
}
