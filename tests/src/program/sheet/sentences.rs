//! What the program for sheets says on standard error, without the line feed. A sentence that ends in
//! a colon is followed by a blank and what the system says of the failure.

/// The help.
pub const HELP: &str = "\
usage: sheet check FILE                  the number of records
       sheet list FILE                   the records, a line each
       sheet at FILE PLACE               the record at a place, counted from 0
       sheet find FILE CRAFT BLOCK       the record with these numbers
       sheet add FILE CRAFT BLOCK N TEN  adds a block of N inputs, in hexadecimal
       sheet add FILE CRAFT BLOCK        adds the block of a cover on standard input
A line: place, spacecraft number, block number, n, type, ten bytes. A refusal: R,
its number, the place of the record, or 0. The exit status is 0 in any case.
Numbers are decimal digits. A new sheet is an empty file.
Adding writes FILE.new, flushes it to disk and gives it the name FILE; FILE has
to be a plain file. Not kept of it: mode, owner, other names, a link in its place.
While FILE.new is there, no other add is taken. An add that was killed leaves it,
and FILE as it was: if no add is at work, remove FILE.new.
";

/// What the numbers of refusals mean; 3, 13 and 14 never come.
const MEANINGS: [(u8, &str); 14] = [
    (1, "that n, or a cover's number of inputs, is above 9"),
    (
        2,
        "a wrong length: a sheet has up to 4,681 records of 14 bytes, a block ten bytes",
    ),
    (4, "that no single block computes the function"),
    (5, "that there are 4,681 records already"),
    (6, "that a pin field is neither below n nor 15"),
    (
        7,
        "that F or G is out of order, repeated, or open before carried",
    ),
    (8, "that a row that needs a 0 on an open pin is set"),
    (9, "that the last four bits are not zero"),
    (
        10,
        "a spacecraft number not from 1 to 65,535, or a block number above 4,095",
    ),
    (11, "that the number pair is not above the one before"),
    (12, "that no record has that number pair, or place"),
    (15, "that the cover is not one .names part"),
    (16, "that a name of the cover is used twice"),
    (17, "that the cover has lines with both outputs"),
];

/// Words that are no bytes, a cover and a name that are too long.
pub const NO_BYTES: &str = "sheet: TEN is no bytes: give twenty hexadecimal digits";
pub const LONG_COVER: &str = "sheet: the cover is longer than 1,048,576 bytes";
pub const LONG_NAME: &str = "sheet: the file's name is too long";

/// What cannot be read.
pub const NO_COVER: &str = "sheet: the cover could not be read:";
pub const NOT_OPENED: &str = "sheet: the file could not be opened:";
pub const NOT_READ: &str = "sheet: the file could not be read:";

/// FILE.new: it is there, or a longer sheet is not kept in it, or it is not removed.
pub const THERE: &str =
    "sheet: FILE.new is there already: if no add is at work, one was killed; remove it";
pub const NOT_MADE: &str = "sheet: FILE.new could not be made:";
pub const NOT_WRITTEN: &str = "sheet: FILE.new could not be written:";
pub const NOT_FLUSHED: &str = "sheet: FILE.new could not be flushed to disk:";
pub const NOT_NAMED: &str = "sheet: FILE.new could not be given the name FILE:";
pub const NOT_REMOVED: &str = "sheet: FILE.new could not be removed:";

/// The record is added, and something fails after it.
pub const FOLDER_NOT_OPENED: &str =
    "sheet: the record is added, but the folder could not be opened to flush it:";
pub const FOLDER_NOT_FLUSHED: &str =
    "sheet: the record is added, but the folder could not be flushed to disk:";
pub const NOT_PRINTED: &str =
    "sheet: standard output could not be written; what was added is added";

/// What is said of a refusal.
pub fn meaning(number: u8) -> String {
    let meaning = MEANINGS.iter().find(|(known, _)| *known == number);
    let (_, meaning) = meaning.unwrap_or_else(|| panic!("{number} never comes"));
    format!("sheet: {number} means {meaning}")
}

/// What is said where a word is no number.
pub fn no_number(name: &str) -> String {
    format!("sheet: {name} is no number: give up to 4,096 decimal digits")
}

/// What is said where a call fails with this number: the sentence, and what the system says.
pub fn failed(sentence: &str, error: i32) -> String {
    let text = std::io::Error::from_raw_os_error(error).to_string();
    let (reason, _) = text.split_once(" (os error").expect("the system's text");
    format!("{sentence} {reason}")
}

/// Whether a line, with its line feed, is what must be said.
pub fn is_said(line: &[u8], sentence: &str) -> bool {
    let rest = line.strip_prefix(sentence.as_bytes());
    match (rest, sentence.ends_with(':')) {
        (Some([b' ', reason @ .., b'\n']), true) => !reason.is_empty() && !reason.contains(&b'\n'),
        (Some(rest), false) => rest == b"\n",
        _ => false,
    }
}

#[cfg(test)]
mod tests {
    use super::{failed, is_said, LONG_NAME, NOT_READ};

    #[test]
    fn compares_whole_lines() {
        let line = |sentence: &str, rest: &str| format!("{sentence}{rest}").into_bytes();
        assert!(is_said(&line(LONG_NAME, "\n"), LONG_NAME));
        for rest in ["", ".\n", " \n", "\n\n"] {
            assert!(!is_said(&line(LONG_NAME, rest), LONG_NAME));
        }
        assert!(is_said(&line(NOT_READ, " Is a directory\n"), NOT_READ));
        for rest in ["", "\n", " \n", " Is\n a\n", "Is a directory\n"] {
            assert!(!is_said(&line(NOT_READ, rest), NOT_READ));
        }
        let whole = failed(NOT_READ, 5);
        assert!(is_said(&line(NOT_READ, " Input/output error\n"), &whole));
    }
}
