//! Covers to be read for the time that it takes.

use crate::random::Random;

/// Makes a cover of about so many bytes.
pub type Maker = fn(usize, &mut Random) -> Vec<u8>;

/// The covers and their names.
pub const KINDS: [(&str, Maker); 7] = [
    ("9 inputs, any marks", |size, random| {
        lines(9, b"01-", size, random)
    }),
    ("9 inputs, all open", |size, random| {
        lines(9, b"-", size, random)
    }),
    ("6 inputs, any marks", |size, random| {
        lines(6, b"01-", size, random)
    }),
    ("2 inputs, any marks", |size, random| {
        lines(2, b"01-", size, random)
    }),
    ("no inputs", |size, random| lines(0, b"", size, random)),
    ("names, 9 inputs", |size, _| names(size)),
    ("comments", comments),
];

/// Lines with some marks and output 1.
fn lines(inputs: u8, marks: &[u8], size: usize, random: &mut Random) -> Vec<u8> {
    let names = (b'a'..b'a' + inputs).flat_map(|name| [name, b' ']);
    let mut text: Vec<u8> = b".names "
        .iter()
        .copied()
        .chain(names)
        .chain(*b"y\n")
        .collect();
    while text.len() < size {
        text.extend((0..inputs).map(|_| random.one(marks)));
        text.extend(if inputs > 0 { b" 1\n" } else { &b"1\n"[..] });
    }
    text
}

/// Ten names that differ in the last byte, and one line.
fn names(size: usize) -> Vec<u8> {
    let mut text = b".names".to_vec();
    for last in b'0'..=b'9' {
        text.push(b' ');
        text.extend(vec![b'n'; size / 10]);
        text.push(last);
    }
    text.extend(b"\n--------- 1\n");
    text
}

/// Comments of up to eighty bytes, each a line, and one cover line.
fn comments(size: usize, random: &mut Random) -> Vec<u8> {
    let mut text = b".names y\n".to_vec();
    while text.len() < size {
        text.push(b'#');
        let length = random.below(80);
        text.extend((0..length).map(|_| 32 + random.below(95) as u8));
        text.push(b'\n');
    }
    text.extend(b"1\n");
    text
}
