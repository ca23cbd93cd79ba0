//! A second reader of covers, made only to check the product's.
//!
//! It takes a text apart in whole steps: into lines, each line into words, the words into a head
//! and cover lines. A text that does not come apart so is 15, and the other rules are asked of what
//! came of it, each by itself. The table is found row by row: every line is asked whether it covers
//! the row.

use crate::table::{table_length, table_of};
use std::collections::BTreeSet;

/// What is read from a text: n and the table, or the number of the refusal.
pub type Outcome = Result<(u8, Vec<u8>), u8>;

/// A text that came apart.
struct Part<'a> {
    /// The names, the output's last.
    names: Vec<&'a [u8]>,
    lines: Vec<Line<'a>>,
}

/// A cover line.
struct Line<'a> {
    marks: &'a [u8],
    output: u8,
}

/// The lines of a text, without their ends. What follows the last LF is a line too, whose CR is no
/// end.
fn lines_of(text: &[u8]) -> Vec<&[u8]> {
    let pieces: Vec<&[u8]> = text.split(|byte| *byte == b'\n').collect();
    let (last, ended) = pieces.split_last().expect("a text has a line");
    let ended = ended
        .iter()
        .map(|line| line.strip_suffix(b"\r").unwrap_or(line));
    ended.chain([*last]).collect()
}

/// The words of a line without its comment.
fn words_of(line: &[u8]) -> Vec<&[u8]> {
    let before = line.split(|byte| *byte == b'#').next();
    let runs = before
        .unwrap_or_default()
        .split(|byte| b" \t".contains(byte));
    runs.filter(|word| !word.is_empty()).collect()
}

/// Whether a word is a name.
fn is_name(word: &&[u8]) -> bool {
    let fine = |byte: &u8| byte.is_ascii_graphic() && !b"#\\".contains(byte);
    word.iter().all(fine)
}

/// The cover line for so many inputs that words are.
fn line_of<'a>(words: &[&'a [u8]], inputs: usize) -> Option<Line<'a>> {
    let (marks, output) = match (inputs, words) {
        (0, [output]) => (&b""[..], output),
        (1.., [marks, output]) => (*marks, output),
        _ => return None,
    };
    let fine = marks.len() == inputs && marks.iter().all(|mark| b"01-".contains(mark));
    match **output {
        [output @ (b'0' | b'1')] if fine => Some(Line { marks, output }),
        _ => None,
    }
}

/// What a text comes apart into, if it does.
fn part_of(text: &[u8]) -> Option<Part<'_>> {
    let lines = lines_of(text).into_iter().map(words_of);
    let mut spoken = lines.filter(|words| !words.is_empty());
    let head = spoken.next()?;
    let (first, names) = head.split_first()?;
    let fine = *first == b".names" && !names.is_empty() && names.iter().all(is_name);
    let inputs = names.len().checked_sub(1)?;
    let lines = spoken
        .map(|words| line_of(&words, inputs))
        .collect::<Option<_>>()?;
    let names = names.to_vec();
    fine.then_some(Part { names, lines })
}

impl Line<'_> {
    /// The variables with a mark, variable i as bit i.
    fn marked(&self, mark: u8) -> usize {
        let places = self.marks.iter().zip(0..).filter(|(one, _)| **one == mark);
        places.map(|(_, variable)| 1 << variable).sum()
    }
}

impl Part<'_> {
    fn inputs(&self) -> usize {
        self.names.len() - 1
    }

    /// Whether a name is used twice.
    fn repeats(&self) -> bool {
        let different: BTreeSet<&[u8]> = self.names.iter().copied().collect();
        different.len() < self.names.len()
    }

    /// For each line with an output, the variables that are 1 and those that are 0 in the rows that
    /// it covers.
    fn covered(&self, output: u8) -> Vec<(usize, usize)> {
        let lines = self.lines.iter().filter(|line| line.output == output);
        let both = |line: &Line| (line.marked(b'1'), line.marked(b'0'));
        lines.map(both).collect()
    }

    /// The table of lines with one output, for at most nine inputs.
    fn table(&self) -> Vec<u8> {
        let (ones, zeros) = (self.covered(b'1'), self.covered(b'0'));
        let covers =
            |row: usize| move |(one, zero): &(usize, usize)| row & one == *one && row & zero == 0;
        table_of(self.inputs(), |row| {
            ones.iter().any(covers(row)) || !zeros.is_empty() && !zeros.iter().any(covers(row))
        })
    }
}

/// Reads a text into as much room as is needed.
pub fn read(text: &[u8]) -> Outcome {
    let part = part_of(text).ok_or(15)?;
    let has = |output: u8| part.lines.iter().any(|line| line.output == output);
    if part.inputs() > 9 {
        return Err(1);
    }
    if part.repeats() {
        return Err(16);
    }
    if has(b'0') && has(b'1') {
        return Err(17);
    }
    Ok((part.inputs() as u8, part.table()))
}

/// The outcome where there is so much room.
pub fn within(outcome: &Outcome, room: usize) -> Outcome {
    match outcome {
        Ok((n, _)) if room < table_length(*n as usize) => Err(5),
        _ => outcome.clone(),
    }
}
