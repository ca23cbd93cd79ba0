//! Holds the product's answers about sheets to those of the second reader and writer.

use crate::hexadecimal::hexadecimal;
use crate::lent::{filling, said, Left};
use crate::library::Answer;
use crate::sheets::second::{Sheet, RECORD};
use crate::sheets::watched::{self, Question};
use crate::tally::{Kind, Tally};

/// The kinds of questions, with the numbers that each must have been answered with, 0 for success.
const KINDS: [Kind; 5] = [
    ("check", &[0, 1, 2, 6, 7, 8, 9, 10, 11]),
    ("read", &[0, 1, 2, 5, 6, 7, 8, 9, 10, 11, 12]),
    ("find", &[0, 1, 2, 6, 7, 8, 9, 10, 11, 12]),
    ("append to a sheet at fault", &[1, 2, 6, 7, 8, 9, 10, 11]),
    ("append to a right sheet", &[0, 1, 2, 5, 6, 7, 8, 9, 10, 11]),
];

/// A comparison under way.
pub struct Judge {
    pub tally: Tally,
}

/// The kind of a question.
fn kind(question: &Question, read: &Sheet) -> usize {
    match question {
        Question::Check => 0,
        Question::Read { .. } => 1,
        Question::Find { .. } => 2,
        Question::Append { .. } if read.records.is_err() => 3,
        Question::Append { .. } => 4,
    }
}

/// Records in hexadecimal, a blank between them.
fn records(bytes: &[u8]) -> String {
    let records: Vec<String> = bytes.chunks(RECORD).map(hexadecimal).collect();
    records.join(" ")
}

/// A sheet for a reader of a difference: whole, or of a long one the records about a place.
fn shown(sheet: &[u8], place: usize) -> String {
    let length = sheet.len();
    if length <= 8 * RECORD {
        return format!("sheet of {length} bytes: {}", records(sheet));
    }
    let first = place.saturating_sub(1).min(length / RECORD - 1);
    let part = records(&sheet[RECORD * first..length.min(RECORD * (first + 3))]);
    format!("sheet of {length} bytes, from record {first}: {part}")
}

impl Judge {
    /// A comparison that begins, and the command that repeats it.
    pub fn new(repeat: String) -> Judge {
        Judge {
            tally: Tally::new("sheets", "sheets", &KINDS, repeat),
        }
    }

    /// Tells of a difference and ends the run.
    fn differ(&self, question: &Question, sheet: &[u8], left: &Left, wanted: &Left) -> ! {
        let names = ["the lent sheet", "the other buffer"];
        self.tally.differ(&[
            question.to_string(),
            shown(sheet, wanted.answer.part as usize),
            format!("the product {}", left.described(wanted, names)),
            format!("the second {}", said(wanted.answer)),
        ])
    }

    /// Asks both about a sheet that the second has read. What the product left is handed back.
    pub fn ask(&mut self, question: &Question, sheet: &[u8], read: &Sheet) -> Left {
        let filling = filling(self.tally.answers());
        let left = watched::product(question, sheet, filling);
        let wanted = watched::second(question, sheet, read, filling);
        if left != wanted {
            self.differ(question, sheet, &left, &wanted);
        }
        self.tally
            .answer(kind(question, read), wanted.answer.number);
        left
    }

    /// Asks both some questions about a sheet.
    pub fn sheet(&mut self, sheet: &[u8], questions: &[Question]) {
        let read = Sheet::read(sheet);
        for question in questions {
            self.ask(question, sheet, &read);
        }
        self.tally.thing();
    }

    /// Asks both one question, of which the answer is known.
    pub fn known(&mut self, question: Question, sheet: &[u8], answer: Answer) {
        let second = watched::second(&question, sheet, &Sheet::read(sheet), 0);
        assert_eq!(second.answer, answer, "the second is wrong: {question}");
        self.sheet(sheet, &[question]);
    }
}
