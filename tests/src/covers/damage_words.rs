//! Damages to the names, the marks and the outputs of a cover.

use crate::covers::damage::{in_line, in_lines, place_of, put};
use crate::random::Random;

/// Changes the words of the first line, of which there is at least one.
fn in_head(text: &mut Vec<u8>, change: impl FnOnce(&mut Vec<Vec<u8>>)) {
    in_lines(text, |lines| {
        let head = lines[0].trim_ascii_end().split(|byte| *byte == b' ');
        let mut words: Vec<Vec<u8>> = head.map(<[u8]>::to_vec).collect();
        change(&mut words);
        lines[0] = words.join(&b' ');
        lines[0].push(b'\n');
    });
}

/// The first line is that of the other text.
pub fn head_taken(text: &mut Vec<u8>, other: &[u8], _: &mut Random) {
    let head = other.split_inclusive(|byte| *byte == b'\n').next();
    in_lines(text, |lines| lines[0] = head.unwrap_or_default().to_vec());
}

/// A word of the first line stands in the place of another too.
pub fn name_repeated(text: &mut Vec<u8>, _: &[u8], random: &mut Random) {
    in_head(text, |words| {
        let place = random.below(words.len());
        words[place] = words[random.below(words.len())].clone();
    });
}

/// A name is another with a byte more.
pub fn name_extended(text: &mut Vec<u8>, _: &[u8], random: &mut Random) {
    in_head(text, |words| {
        let place = random.below(words.len());
        words[place] = words[random.below(words.len())].clone();
        words[place].push(random.one(b"0z~"));
    });
}

/// A word of the first line is taken out.
pub fn name_lost(text: &mut Vec<u8>, _: &[u8], random: &mut Random) {
    in_head(text, |words| {
        words.remove(random.below(words.len()));
    });
}

/// The first line has a word more.
pub fn name_added(text: &mut Vec<u8>, _: &[u8], random: &mut Random) {
    in_head(text, |words| {
        let name = random.one(&["q", "q0", "q1", ".names"]);
        words.insert(random.below(words.len() + 1), name.into());
    });
}

/// A line's first mark is taken out.
pub fn mark_lost(text: &mut Vec<u8>, _: &[u8], random: &mut Random) {
    in_line(text, random, |line, _| {
        drop(line.drain(..line.len().min(1)))
    });
}

/// A line has a mark more.
pub fn mark_added(text: &mut Vec<u8>, _: &[u8], random: &mut Random) {
    in_line(text, random, |line, random| {
        line.insert(0, random.one(b"01-"))
    });
}

/// A mark, or an output, is another mark.
pub fn mark_changed(text: &mut Vec<u8>, _: &[u8], random: &mut Random) {
    if let Some(place) = place_of(b"01-", text, random) {
        text.splice(place..=place, [random.one(b"01-")]);
    }
}

/// Turns the output of a line, if it ends in one.
fn turn(line: &mut [u8]) {
    let length = line.trim_ascii_end().len();
    if let Some(output @ (b'0' | b'1')) = line[..length].last_mut() {
        *output ^= 1;
    }
}

/// The output of a line is turned.
pub fn output_turned(text: &mut Vec<u8>, _: &[u8], random: &mut Random) {
    in_line(text, random, |line, _| turn(line));
}

/// The output of every line is turned.
pub fn outputs_turned(text: &mut Vec<u8>, _: &[u8], _: &mut Random) {
    in_lines(text, |lines| {
        lines.iter_mut().skip(1).for_each(|line| turn(line))
    });
}

/// The outputs of some lines are turned.
pub fn outputs_mixed(text: &mut Vec<u8>, _: &[u8], random: &mut Random) {
    in_lines(text, |lines| {
        let some = lines.iter_mut().filter(|_| random.below(2) == 0);
        some.for_each(|line| turn(line));
    });
}

/// There are more inputs, and as many marks more in every line.
pub fn widened(text: &mut Vec<u8>, _: &[u8], random: &mut Random) {
    let more = random.one(&[1, 1, 2, 3, 5, 9, 256]);
    let names = (0..more).map(|k| format!("wide{k}").into_bytes());
    in_head(text, |words| drop(words.splice(1..1, names)));
    in_lines(text, |lines| {
        for line in lines.iter_mut().skip(1) {
            let marks: Vec<u8> = (0..more).map(|_| random.one(b"01--")).collect();
            put(line, 0, &marks);
        }
    });
}

/// The first input is taken out, and the first mark of every line.
pub fn narrowed(text: &mut Vec<u8>, _: &[u8], _: &mut Random) {
    in_head(text, |words| drop(words.drain(1..words.len().min(2))));
    in_lines(text, |lines| {
        for line in lines.iter_mut().skip(1) {
            line.drain(..line.len().min(1));
        }
    });
}
