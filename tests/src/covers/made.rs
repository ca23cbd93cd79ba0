//! Covers made anew from a seed, and other texts of the same cover.

use crate::random::Random;
use crate::table::holds;

/// The bytes of names made.
const OF_NAMES: &[u8] = b"abcxyzEN019_.-[]()<>$!~";

/// A name by chance.
fn name(random: &mut Random) -> Vec<u8> {
    let length = random.one(&[1, 2, 3, 8, 20]);
    (0..length).map(|_| random.one(OF_NAMES)).collect()
}

/// So many names, all different.
pub fn names(count: usize, random: &mut Random) -> Vec<Vec<u8>> {
    let mut names = vec![];
    while names.len() < count {
        let name = name(random);
        if !names.contains(&name) {
            names.push(name);
        }
    }
    names
}

/// A cover line for each row on which a table of n inputs is 1, or is 0.
pub fn rows(n: usize, table: &[u8], value: bool) -> Vec<Vec<u8>> {
    let digit = |bit: bool| b'0' + bit as u8;
    let line = |row: usize| {
        let marks = (0..n).map(|variable| digit(row >> variable & 1 == 1));
        marks.chain([b' ', digit(value)]).collect()
    };
    let rows = (0..1 << n).filter(|row| holds(table, *row) == value);
    rows.map(line).collect()
}

/// So many cover lines by chance, with one output.
pub fn lines(n: usize, count: usize, random: &mut Random) -> Vec<Vec<u8>> {
    let (output, among) = (random.one(b"01"), random.one(&["01-", "01----", "01", "-"]));
    let mut line = || {
        let marks = (0..n).map(|_| random.one(among.as_bytes()));
        marks.chain([b' ', output]).collect()
    };
    (0..count).map(|_| line()).collect()
}

/// The text of a cover.
pub fn text(names: &[Vec<u8>], lines: &[Vec<u8>]) -> Vec<u8> {
    let mut text = [&b".names "[..], &names.join(&b' ')].concat();
    for line in lines {
        text.push(b'\n');
        text.extend(line);
    }
    text.push(b'\n');
    text
}

/// A cover by chance of any n.
pub fn cover(random: &mut Random) -> Vec<u8> {
    let n = random.below(10);
    let count = random.one(&[0, 1, 2, 5, 20]);
    text(&names(n + 1, random), &lines(n, count, random))
}

/// A comment of any bytes but LF.
pub fn comment(random: &mut Random) -> Vec<u8> {
    let length = random.below(12);
    let byte = |_| match random.bits() as u8 {
        b'\n' => b'\\',
        byte => byte,
    };
    [b'#'].into_iter().chain((0..length).map(byte)).collect()
}

/// What separates two words.
fn separator(random: &mut Random) -> &'static [u8] {
    random
        .one(&[" ", " ", "\t", "  ", " \t", "\t\t   "])
        .as_bytes()
}

/// A line without words, and without its end.
fn blank_line(random: &mut Random) -> Vec<u8> {
    let blanks = random.one(&["", " ", "\t \t"]).as_bytes();
    match random.below(2) {
        0 => blanks.to_vec(),
        _ => [blanks, &comment(random)].concat(),
    }
}

/// A line with these words, in some layout and without its end.
fn laid_out(words: &[&[u8]], random: &mut Random) -> Vec<u8> {
    let mut line = vec![];
    for (k, word) in words.iter().enumerate() {
        if k > 0 || random.below(4) == 0 {
            line.extend(separator(random));
        }
        line.extend(*word);
    }
    if random.below(4) == 0 {
        line.extend(separator(random));
    }
    if random.below(4) == 0 {
        line.extend(comment(random));
    }
    line
}

/// The lines of a plain text in another order but for the first, some of them doubled.
fn reordered<'a>(text: &'a [u8], random: &mut Random) -> Vec<&'a [u8]> {
    let mut lines: Vec<&[u8]> = text.split(|byte| *byte == b'\n').collect();
    lines.retain(|line| !line.is_empty());
    for place in 1..lines.len() {
        lines.swap(place, 1 + random.below(place));
        if random.below(6) == 0 {
            lines.push(lines[place]);
        }
    }
    lines
}

/// Another text of the cover that a plain text has, one without tabs, comments and CR: its lines in
/// another order and some doubled, with other blanks, line ends and comments.
pub fn in_other_words(text: &[u8], random: &mut Random) -> Vec<u8> {
    let mut lines: Vec<Vec<u8>> = vec![];
    for line in reordered(text, random) {
        while random.below(5) == 0 {
            lines.push(blank_line(random));
        }
        let words = line
            .split(|byte| *byte == b' ')
            .filter(|word| !word.is_empty());
        lines.push(laid_out(&words.collect::<Vec<_>>(), random));
    }
    let ends = random.one(&[["\n", "\n"], ["\r\n", "\r\n"], ["\n", "\r\n"]]);
    let mut whole = lines.remove(0);
    for line in lines {
        whole.extend(random.one(&ends).as_bytes());
        whole.extend(line);
    }
    whole.extend(random.one(&["", ends[0]]).as_bytes());
    whole
}
