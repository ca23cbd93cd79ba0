//! Damages to the text of a cover, to its bytes and its lines. Some may by chance leave it as it
//! was, or right in another way.

use crate::covers::damage_words as words;
use crate::covers::made::comment;
use crate::random::Random;

/// A damage to a text, with another text to take from.
pub type Damage = fn(&mut Vec<u8>, &[u8], &mut Random);

/// The damages to a text.
pub const DAMAGES: [Damage; 32] = [
    byte_changed,
    byte_inserted,
    byte_removed,
    line_doubled,
    line_removed,
    line_cut,
    lines_joined,
    line_moved,
    line_taken,
    line_strange,
    line_end_exchanged,
    line_ends_exchanged,
    comment_put,
    comment_line,
    blank_exchanged,
    continued,
    cut,
    start_cut,
    joined,
    words::head_taken,
    words::name_repeated,
    words::name_extended,
    words::name_lost,
    words::name_added,
    words::mark_lost,
    words::mark_added,
    words::mark_changed,
    words::output_turned,
    words::outputs_turned,
    words::outputs_mixed,
    words::widened,
    words::narrowed,
];

/// Bytes that mean something, and those beside the limits of what may stand in a name.
pub const SPECIAL: &[u8] = b"\0\t\n\x0B\r\x1F !\"#$-./012\\~\x7F\x80\xFF";

/// Lines that are in BLIF and no part of a cover, and lines for no inputs and for one.
const STRANGE: [&str; 8] = [
    ".end\n",
    ".model m\n",
    ".names z\n",
    ".inputs a\n",
    "\\\n",
    "\r\n",
    "1\n",
    "1 1\n",
];

/// A place in a text, its end included.
fn place(text: &[u8], random: &mut Random) -> usize {
    random.below(text.len() + 1)
}

/// Puts bytes into a text.
pub fn put(text: &mut Vec<u8>, place: usize, bytes: &[u8]) {
    text.splice(place..place, bytes.iter().copied());
}

/// The place of some byte among these, if there is one.
pub fn place_of(among: &[u8], text: &[u8], random: &mut Random) -> Option<usize> {
    let start = place(text, random);
    let places = (start..text.len()).chain(0..start);
    places
        .into_iter()
        .find(|place| among.contains(&text[*place]))
}

/// Changes the lines of a text, each with its end; there is at least one.
pub fn in_lines(text: &mut Vec<u8>, change: impl FnOnce(&mut Vec<Vec<u8>>)) {
    let pieces = text.split_inclusive(|byte| *byte == b'\n');
    let mut lines: Vec<Vec<u8>> = pieces.map(<[u8]>::to_vec).collect();
    if lines.is_empty() {
        lines.push(vec![]);
    }
    change(&mut lines);
    *text = lines.concat();
}

/// Changes one line, the first less often than others.
pub fn in_line(
    text: &mut Vec<u8>,
    random: &mut Random,
    change: impl FnOnce(&mut Vec<u8>, &mut Random),
) {
    in_lines(text, |lines| {
        let place = random.below(lines.len()).max(random.below(2));
        let place = place.min(lines.len() - 1);
        change(&mut lines[place], random);
    });
}

/// Puts a line among the others.
fn put_line(text: &mut Vec<u8>, random: &mut Random, line: &[u8]) {
    in_lines(text, |lines| {
        lines.insert(random.below(lines.len() + 1), line.to_vec());
    });
}

/// A byte is another, or one follows the last: by one bit, one that means something, or any.
fn byte_changed(text: &mut Vec<u8>, _: &[u8], random: &mut Random) {
    let place = place(text, random);
    let byte = match random.below(3) {
        0 => text.get(place).unwrap_or(&0) ^ 1 << random.below(8),
        1 => random.one(SPECIAL),
        _ => random.bits() as u8,
    };
    text.splice(place..text.len().min(place + 1), [byte]);
}

/// A byte that means something is put in.
fn byte_inserted(text: &mut Vec<u8>, _: &[u8], random: &mut Random) {
    text.insert(place(text, random), random.one(SPECIAL));
}

/// A byte is taken out.
fn byte_removed(text: &mut Vec<u8>, _: &[u8], random: &mut Random) {
    let place = place(text, random);
    text.drain(place..text.len().min(place + 1));
}

/// A line stands twice.
fn line_doubled(text: &mut Vec<u8>, _: &[u8], random: &mut Random) {
    in_line(text, random, |line, _| *line = line.repeat(2));
}

/// A line is taken out.
fn line_removed(text: &mut Vec<u8>, _: &[u8], random: &mut Random) {
    in_line(text, random, |line, _| line.clear());
}

/// A line ends before some byte.
fn line_cut(text: &mut Vec<u8>, _: &[u8], random: &mut Random) {
    in_line(text, random, |line, random| {
        line.truncate(place(line, random));
        line.push(b'\n');
    });
}

/// A line goes on with the next, with a blank between them or none.
fn lines_joined(text: &mut Vec<u8>, _: &[u8], random: &mut Random) {
    in_line(text, random, |line, random| {
        line.pop();
        line.extend(random.one(&["", " "]).bytes());
    });
}

/// A line stands at another place.
fn line_moved(text: &mut Vec<u8>, _: &[u8], random: &mut Random) {
    in_lines(text, |lines| {
        let line = lines.remove(random.below(lines.len()));
        lines.insert(random.below(lines.len() + 1), line);
    });
}

/// A line of the other text is put in.
fn line_taken(text: &mut Vec<u8>, other: &[u8], random: &mut Random) {
    let lines: Vec<&[u8]> = other.split_inclusive(|byte| *byte == b'\n').collect();
    let line = random.one(&lines);
    put_line(text, random, line);
}

/// A line is put in that is no cover line here.
fn line_strange(text: &mut Vec<u8>, _: &[u8], random: &mut Random) {
    let line = random.one(&STRANGE);
    put_line(text, random, line.as_bytes());
}

/// A line ends otherwise, or not.
fn line_end_exchanged(text: &mut Vec<u8>, _: &[u8], random: &mut Random) {
    if let Some(place) = place_of(b"\n", text, random) {
        let end = random.one(&["\r\n", "\r", "\r\r\n", "\n\r", "\n\n", " \n", ""]);
        text.splice(place..=place, end.bytes());
    }
}

/// Every line ends otherwise.
fn line_ends_exchanged(text: &mut Vec<u8>, _: &[u8], random: &mut Random) {
    let end = random.one(&["\r\n", "\r\n", "\r\n", "\r", "\n\r", "\n\n"]);
    in_lines(text, |lines| {
        for line in lines {
            let kept = line.strip_suffix(b"\n").unwrap_or(line);
            *line = [kept, end.as_bytes()].concat();
        }
    });
}

/// A comment begins at some place, and goes on to the line's end or to one that is put in.
fn comment_put(text: &mut Vec<u8>, _: &[u8], random: &mut Random) {
    let mut comment = comment(random);
    comment.extend(random.one(&["", "\n", "\r\n"]).bytes());
    put(text, place(text, random), &comment);
}

/// A line is put in that is a comment.
fn comment_line(text: &mut Vec<u8>, _: &[u8], random: &mut Random) {
    let mut line = comment(random);
    line.push(b'\n');
    put_line(text, random, &line);
}

/// A blank is another separator, or a byte that only looks like one, or nothing.
fn blank_exchanged(text: &mut Vec<u8>, _: &[u8], random: &mut Random) {
    if let Some(place) = place_of(b" ", text, random) {
        let blank = random.one(&["\t", "  ", " \t ", "\x0B", "\x0C", "\0", "\u{A0}", ""]);
        text.splice(place..=place, blank.bytes());
    }
}

/// A line is continued by a backslash.
fn continued(text: &mut Vec<u8>, _: &[u8], random: &mut Random) {
    if let Some(place) = place_of(b" ", text, random) {
        let mark = random.one(&[" \\\n ", " \\\r\n", "\\\n"]);
        text.splice(place..=place, mark.bytes());
    }
}

/// The text ends before some byte.
fn cut(text: &mut Vec<u8>, _: &[u8], random: &mut Random) {
    text.truncate(place(text, random));
}

/// The text begins at some byte.
fn start_cut(text: &mut Vec<u8>, _: &[u8], random: &mut Random) {
    text.drain(..place(text, random));
}

/// The other text follows, whole or without its first line.
fn joined(text: &mut Vec<u8>, other: &[u8], random: &mut Random) {
    let lines = other.split_inclusive(|byte| *byte == b'\n');
    text.extend(lines.skip(random.below(2)).flatten());
}
