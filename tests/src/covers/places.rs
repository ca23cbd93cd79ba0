//! Every byte at each place of a text where it matters which one stands there.

use crate::covers::cases::Case;
use crate::covers::second::Outcome;

/// A place: the text before it, the text after it, and the outcome with a byte there.
type Place = (&'static str, &'static str, fn(u8) -> Outcome);

const PLACES: [Place; 16] = [
    // In a name, as a name, and as the output's name.
    (".names a", "b y\n1 1\n", |byte| identity_if(of_name(byte))),
    (".names ", " y\n1 1\n", |byte| match byte {
        b'y' => Err(16),
        _ => identity_if(of_name(byte)),
    }),
    (".names a b", "\n", |byte| match byte {
        b'\n' | b'\r' | b' ' | b'\t' | b'#' => zero(1),
        _ if of_name(byte) => zero(1),
        _ => Err(15),
    }),
    // In a comment, and at its end.
    (".names a y # ", " z\n1 1\n", |byte| {
        identity_if(byte != b'\n')
    }),
    (".names a y #", "\n1 1\n", |_| identity_if(true)),
    // As a mark.
    (".names a y\n", " 1\n", |byte| match byte {
        b'#' => zero(1),
        _ => mark(1, byte, [0x80, 0x40, 0xC0]),
    }),
    (".names a b c y\n1", "1 1\n", |byte| {
        mark(3, byte, [0x04, 0x01, 0x05])
    }),
    (".names a b c y\n00", " 0\n", |byte| {
        mark(3, byte, [0x7F, 0xF7, 0x77])
    }),
    // As the output, between it and the marks, and after it.
    (".names a y\n1 ", "\n", |byte| match byte {
        b'0' => Ok((1, vec![0x80])),
        _ => identity_if(byte == b'1'),
    }),
    (".names a y\n1", "1\n", |byte| {
        identity_if(b" \t".contains(&byte))
    }),
    (".names a y\n1 1", "\n", |byte| {
        identity_if(b" \t#\n\r".contains(&byte))
    }),
    // At the end of the text, at its start, and after the word at its start.
    (".names a y\n1 1", "", |byte| {
        identity_if(b" \t#\n".contains(&byte))
    }),
    ("", ".names a y\n1 1\n", |byte| {
        identity_if(b" \t\n".contains(&byte))
    }),
    (".names", "a y\n1 1\n", |byte| {
        identity_if(b" \t".contains(&byte))
    }),
    // As a line.
    (".names a y\n1 1\n", "\n", |byte| {
        identity_if(b" \t#\n\r".contains(&byte))
    }),
    (".names y\n", "\n", |byte| match byte {
        b'1' => Ok((0, vec![0x80])),
        b'0' | b' ' | b'\t' | b'#' | b'\n' | b'\r' => zero(0),
        _ => Err(15),
    }),
];

/// Whether a byte may stand in a name.
fn of_name(byte: u8) -> bool {
    (33..=126).contains(&byte) && byte != b'#' && byte != b'\\'
}

/// The outcome of a text that says the identity if it is a cover.
fn identity_if(fine: bool) -> Outcome {
    match fine {
        true => Ok((1, vec![0x40])),
        false => Err(15),
    }
}

/// The constant 0 of up to three inputs.
fn zero(n: u8) -> Outcome {
    Ok((n, vec![0]))
}

/// The table for each of the three marks; every other byte is none.
fn mark(n: u8, byte: u8, tables: [u8; 3]) -> Outcome {
    let place = b"01-".iter().position(|mark| *mark == byte);
    place.map(|place| (n, vec![tables[place]])).ok_or(15)
}

/// Every byte at every place.
pub fn all() -> Vec<Case> {
    let mut cases = vec![];
    for (before, after, outcome) in PLACES {
        for byte in 0..=255 {
            let text = [before.as_bytes(), &[byte], after.as_bytes()].concat();
            cases.push((text, outcome(byte)));
        }
    }
    cases
}
