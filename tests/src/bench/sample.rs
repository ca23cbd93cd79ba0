//! A sheet to ask about, and how each question is put to the product and to the second reader and
//! writer.

use crate::library::{sheet_append, sheet_check, sheet_find, sheet_read, Answer};
use crate::random::Random;
use crate::sheets::made::{self, pair_of, Pair};
use crate::sheets::second::{answer, Record, Sheet, MOST, RECORD};
use std::hint::black_box;
use std::time::Instant;

/// A right sheet, with one record more that may follow it.
pub struct Sample {
    bytes: Vec<u8>,
    /// The records of the sheet.
    count: usize,
    /// A number pair from the middle that the sheet has not.
    absent: Pair,
}

/// What is asked about a sheet.
#[derive(Clone, Copy)]
pub enum Question {
    Check,
    FindFirst,
    FindLast,
    FindAbsent,
    ReadLast,
    Append,
}

impl Sample {
    /// A sheet of this many records.
    pub fn new(count: usize, random: &mut Random) -> Sample {
        let mut bytes = made::sheet(count + 2, random);
        let middle = RECORD * (count / 2);
        let taken: Vec<u8> = bytes.drain(middle..middle + RECORD).collect();
        let absent = pair_of(&taken);
        Sample {
            bytes,
            count,
            absent,
        }
    }

    /// The records of the sheet that a question is about: one is added to no more than 4,680.
    pub fn records(&self, question: Question) -> usize {
        match question {
            Question::Append => self.count.min(MOST - 1),
            _ => self.count,
        }
    }

    /// The bytes of the record at a place.
    fn at(&self, place: usize) -> &[u8] {
        &self.bytes[RECORD * place..RECORD * (place + 1)]
    }

    /// The number pair that a question is about; the record that is added is the one that follows.
    fn pair(&self, question: Question) -> Pair {
        match question {
            Question::FindAbsent => self.absent,
            Question::FindLast => pair_of(self.at(self.count - 1)),
            Question::Append => pair_of(self.at(self.records(question))),
            _ => pair_of(self.at(0)),
        }
    }

    /// The n and the ten bytes of the record that is added.
    fn added(&self) -> (u8, Vec<u8>) {
        let record = self.at(self.records(Question::Append));
        (record[3] % 16, record[4..].to_vec())
    }

    /// The product's answer, and how long it took in microseconds.
    pub fn product(&mut self, question: Question) -> (Answer, f64) {
        let length = RECORD * self.records(question);
        let (pair, (n, ten)) = (self.pair(question), self.added());
        let (place, mut out) = (self.count as u64 - 1, [0; RECORD]);
        let start = Instant::now();
        let answer = match question {
            Question::Check => sheet_check(&self.bytes[..length]),
            Question::ReadLast => sheet_read(&self.bytes[..length], place, &mut out),
            Question::Append => sheet_append(&mut self.bytes, length, pair, n, &ten),
            _ => sheet_find(&self.bytes[..length], pair),
        };
        (answer, start.elapsed().as_secs_f64() * 1e6)
    }

    /// The second's answer, and how long it took in microseconds.
    pub fn second(&self, question: Question) -> (Answer, f64) {
        let length = RECORD * self.records(question);
        let (pair, (n, ten)) = (self.pair(question), self.added());
        let place = self.count as u64 - 1;
        let start = Instant::now();
        let read = Sheet::read(&self.bytes[..length]);
        let outcome = match question {
            Question::Check => read.count(),
            Question::ReadLast => read.at(place, RECORD).map(|record| black_box(record).len()),
            Question::Append => {
                let offered = Record::offered(pair, n, &ten);
                let added = read.append(self.bytes.len(), length, &offered);
                added.map(|record| length + black_box(record).len())
            }
            _ => read.find(pair),
        };
        (answer(outcome), start.elapsed().as_secs_f64() * 1e6)
    }
}
