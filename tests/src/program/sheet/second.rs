//! A second version of the program for sheets, on a sheet held as bytes, made only to check the
//! product's. Numbers are read by Rust's own parser, sheets, covers and types by the second readers,
//! a function is matched by the second matcher, and the columns are made by `format!`.

use crate::blocks::second::type_of;
use crate::covers::second::read;
use crate::hexadecimal::{bytes_of, hexadecimal};
use crate::library::Answer;
use crate::matching::second::Second;
use crate::program::sheet::sentences::{meaning, no_number, LONG_COVER, NO_BYTES};
use crate::sheets::made::{pair_of, Pair};
use crate::sheets::second::{Record, Sheet, MOST, RECORD};

/// The length of the longest cover.
pub const LONGEST_COVER: usize = 1 << 20;

/// The length of the longest word that is taken.
pub const LONGEST_WORD: usize = 4096;

/// What stands on standard error: sentences, a line each, or the help.
#[derive(Clone, PartialEq, Debug)]
pub enum Said {
    Lines(Vec<String>),
    Help,
}

/// What a run must leave: what it prints, what it says, and the sheet if that becomes another.
#[derive(Clone, PartialEq, Debug)]
pub struct Wanted {
    pub printed: String,
    pub said: Said,
    pub sheet: Option<Vec<u8>>,
}

/// Why a command is not obeyed.
enum Fault {
    Help,
    NoNumber(&'static str),
    NoBytes,
    LongCover,
    Refused(Answer),
}

/// What is printed, and the sheet if it becomes another.
type Done = (String, Option<Vec<u8>>);

/// The second version.
pub struct Version {
    matcher: Second,
}

impl From<Answer> for Fault {
    fn from(refusal: Answer) -> Fault {
        Fault::Refused(refusal)
    }
}

/// What is left by a run that prints nothing and says this sentence.
pub fn complaint(sentence: &str) -> Wanted {
    Wanted {
        printed: String::new(),
        said: Said::Lines(vec![sentence.to_string()]),
        sheet: None,
    }
}

/// What is left by a run that refuses.
fn refused(Answer { number, part }: Answer) -> Wanted {
    Wanted {
        printed: format!("R {number} {part}\n"),
        ..complaint(&meaning(number))
    }
}

/// What is left by a run that does not obey.
fn disobeyed(fault: Fault) -> Wanted {
    match fault {
        Fault::Help => Wanted {
            said: Said::Help,
            ..complaint("")
        },
        Fault::NoNumber(name) => complaint(&no_number(name)),
        Fault::NoBytes => complaint(NO_BYTES),
        Fault::LongCover => complaint(LONG_COVER),
        Fault::Refused(refusal) => refused(refusal),
    }
}

/// The line of the record at a place.
fn line(place: usize, record: &[u8]) -> String {
    let ((craft, block), n, ten) = (pair_of(record), record[3] % 16, &record[4..]);
    let kind = type_of(n, ten).part;
    let (letter, digit) = (kind as u8 as char, kind >> 8);
    let ten = hexadecimal(ten);
    format!("{place:>4} {craft:>5} {block:>4} {n} {letter}-{digit} {ten}\n")
}

/// The number that a word is, or the greatest there is if that is less.
fn number(name: &'static str, word: &str) -> Result<u32, Fault> {
    let digits = word.bytes().all(|byte| byte.is_ascii_digit());
    match (1..=LONGEST_WORD).contains(&word.len()) && digits {
        true => Ok(word.parse().unwrap_or(u32::MAX)),
        false => Err(Fault::NoNumber(name)),
    }
}

/// The number pair that two words are.
fn pair(craft: &str, block: &str) -> Result<Pair, Fault> {
    Ok((number("CRAFT", craft)?, number("BLOCK", block)?))
}

/// The bytes that a word is.
fn spelled(word: &str) -> Result<Vec<u8>, Fault> {
    let whole = word.len() % 2 == 0 && word.len() <= LONGEST_WORD;
    match whole && word.bytes().all(|byte| byte.is_ascii_hexdigit()) {
        true => Ok(bytes_of(word)),
        false => Err(Fault::NoBytes),
    }
}

/// The number of records.
fn check(sheet: &[u8]) -> Result<Done, Fault> {
    let count = Sheet::read(sheet).count()?;
    Ok((format!("{count}\n"), None))
}

/// The lines of all records.
fn list(sheet: &[u8]) -> Result<Done, Fault> {
    Sheet::read(sheet).count()?;
    let records = sheet.chunks(RECORD).enumerate();
    let lines = records.map(|(place, record)| line(place, record));
    Ok((lines.collect(), None))
}

/// The line of the record at a place.
fn at(sheet: &[u8], place: u32) -> Result<Done, Fault> {
    let record = Sheet::read(sheet).at(place as u64, RECORD)?;
    Ok((line(place as usize, &record), None))
}

/// The line of the record with a number pair.
fn find(sheet: &[u8], pair: Pair) -> Result<Done, Fault> {
    at(sheet, Sheet::read(sheet).find(pair)? as u32)
}

/// The line of a record that is added, and the longer sheet.
fn add(sheet: &[u8], pair: Pair, n: u8, ten: &[u8]) -> Result<Done, Fault> {
    let (used, room) = (sheet.len(), sheet.len() + RECORD * MOST);
    let offered = Record::offered(pair, n, ten);
    let record = Sheet::read(sheet).append(room, used, &offered)?;
    let line = line(used / RECORD, &record);
    Ok((line, Some([sheet, &record].concat())))
}

impl Version {
    /// The second version, ready to be asked.
    pub fn new() -> Version {
        Version {
            matcher: Second::new(),
        }
    }

    /// The same for the block of a cover.
    fn add_cover(&self, sheet: &[u8], pair: Pair, text: &[u8]) -> Result<Done, Fault> {
        if text.len() > LONGEST_COVER {
            return Err(Fault::LongCover);
        }
        let (n, table) = read(text).map_err(Answer::refusal)?;
        let found = self.matcher.find(n as usize, &table);
        add(sheet, pair, n, &found.ok_or(Answer::refusal(4))?)
    }

    /// Obeys words, with this text on standard input and this sheet in the file.
    fn obeyed(&self, words: &[&str], text: &[u8], sheet: &[u8]) -> Result<Done, Fault> {
        match *words {
            ["check", _] => check(sheet),
            ["list", _] => list(sheet),
            ["at", _, place] => at(sheet, number("PLACE", place)?),
            ["find", _, craft, block] => find(sheet, pair(craft, block)?),
            ["add", _, craft, block] => self.add_cover(sheet, pair(craft, block)?, text),
            ["add", _, craft, block, n, ten] => {
                let (pair, n) = (pair(craft, block)?, number("N", n)?.min(255));
                add(sheet, pair, n as u8, &spelled(ten)?)
            }
            _ => Err(Fault::Help),
        }
    }

    /// What a run must leave with these words, this text on standard input and this sheet.
    pub fn wanted(&self, words: &[String], text: &[u8], sheet: &[u8]) -> Wanted {
        let words: Vec<&str> = words.iter().map(String::as_str).collect();
        match self.obeyed(&words, text, sheet) {
            Err(fault) => disobeyed(fault),
            Ok((printed, sheet)) => Wanted {
                printed,
                said: Said::Lines(vec![]),
                sheet,
            },
        }
    }
}

#[cfg(test)]
mod tests {
    use super::{complaint, Said, Version, Wanted};
    use crate::program::sheet::sentences::{meaning, no_number, NO_BYTES};
    use crate::sheets::made::record;

    /// The block of P4, as words and as a record of spacecraft 7, block 12.
    const P4: [&str; 2] = ["5", "01230123400000000400"];
    const P4_LINE: &str = "   0     7   12 5 A-4 01230123400000000400\n";

    /// The sheet of that record.
    fn p4() -> Vec<u8> {
        record((7, 12), 5, &[0x01, 0x23, 0x01, 0x23, 0x40, 0, 0, 0, 4, 0])
    }

    /// What is wanted of words that a blank separates.
    fn wanted(words: &str, text: &str, sheet: &[u8]) -> Wanted {
        let words: Vec<String> = words.split(' ').map(str::to_string).collect();
        Version::new().wanted(&words, text.as_bytes(), sheet)
    }

    /// What is left by a run that answers.
    fn answered(printed: &str, sheet: Option<Vec<u8>>) -> Wanted {
        Wanted {
            printed: printed.to_string(),
            said: Said::Lines(vec![]),
            sheet,
        }
    }

    /// What is left by a run that refuses.
    fn refused(printed: &str, number: u8) -> Wanted {
        Wanted {
            printed: printed.to_string(),
            ..complaint(&meaning(number))
        }
    }

    #[test]
    fn answers_what_is_known() {
        let [n, ten] = P4;
        let added = answered(P4_LINE, Some(p4()));
        let cover = ".names a b c d e y\n----1 1\n";
        assert_eq!(wanted(&format!("add F 7 12 {n} {ten}"), "", &[]), added);
        assert_eq!(wanted("add F 007 12", cover, &[]), added);
        assert_eq!(wanted("check F", "", &[]), answered("0\n", None));
        assert_eq!(wanted("list F", "", &[]), answered("", None));
        assert_eq!(wanted("check F", "", &p4()), answered("1\n", None));
        for words in ["list F", "at F 0", "find F 7 12"] {
            assert_eq!(wanted(words, "", &p4()), answered(P4_LINE, None));
        }
    }

    #[test]
    fn refuses_what_is_refused() {
        let [n, ten] = P4;
        let add = |pair: &str, n, ten| wanted(&format!("add F {pair} {n} {ten}"), "", &p4());
        assert_eq!(wanted("check F", "", &[0; 13]), refused("R 2 0\n", 2));
        assert_eq!(wanted("at F 1", "", &p4()), refused("R 12 0\n", 12));
        assert_eq!(
            wanted("find F 65543 12", "", &p4()),
            refused("R 12 0\n", 12)
        );
        assert_eq!(add("4294967303 13", n, ten), refused("R 10 1\n", 10));
        assert_eq!(add("7 12", n, ten), refused("R 11 1\n", 11));
        assert_eq!(add("7 13", "261", ten), refused("R 1 1\n", 1));
        assert_eq!(add("7 13", n, "0123"), refused("R 2 0\n", 2));
        assert_eq!(add("7 13", "4", ten), refused("R 6 1\n", 6));
        assert_eq!(wanted("add F 7 12", "", &p4()), refused("R 15 0\n", 15));
        assert_eq!(add("+7 13", n, ten), complaint(&no_number("CRAFT")));
        assert_eq!(add("7 13", n, "012"), complaint(NO_BYTES));
        assert_eq!(wanted("add F 7", "", &[]).said, Said::Help);
    }
}
