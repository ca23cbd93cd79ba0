//! A second reader and writer of patch sheets, made only to check the product's.
//!
//! It takes a sheet as a whole. The sheet becomes a list of records of plain numbers. Each rule of
//! document 01 is asked by itself of every record, whatever the other rules say of it, and so has a
//! first record that breaks it, or none. Of these records the earliest is the one refused, and of
//! several rules that it breaks the one that stands first in document 01's order.

use crate::library::Answer;
use crate::sheets::made::Pair;
use crate::ten::{end_wrong, field_wrong, number, out_of_order, row_wrong};

/// The bytes of a record.
pub const RECORD: usize = 14;

/// The most records of a sheet.
pub const MOST: usize = 4681;

/// A record of a sheet, or one offered. The numbers of one offered can be out of range.
pub struct Record {
    craft: u32,
    block: u32,
    n: u8,
    /// The ten bytes as one number, or none if an offered block is not ten bytes.
    ten: Option<u128>,
}

/// A sheet that was read: its records, or why it is refused.
pub struct Sheet {
    pub records: Result<Vec<Record>, Answer>,
}

/// A rule: its refusal's number, and whether a record breaks it that follows another or none.
type Rule = (u8, fn(&Record, Option<&Record>) -> bool);

/// The rules of a record in document 01's order. A sheet's record is never without ten bytes.
const RULES: [Rule; 8] = [
    (10, |one, _| one.out_of_range()),
    (11, |one, before| one.not_above(before)),
    (1, |one, _| one.n > 9),
    (2, |one, _| one.ten.is_none()),
    (6, |one, _| one.with_ten(|ten| field_wrong(one.n, ten))),
    (7, |one, _| one.with_ten(out_of_order)),
    (8, |one, _| one.with_ten(row_wrong)),
    (9, |one, _| one.with_ten(end_wrong)),
];

/// The refusal of the first record at fault, with the first rule that it breaks.
fn fault(records: &[Record]) -> Option<Answer> {
    let before = |place: usize| place.checked_sub(1).map(|place| &records[place]);
    let breaks = |rule: usize, place: usize| RULES[rule].1(&records[place], before(place));
    let first = |rule| {
        let place = (0..records.len()).find(|place| breaks(rule, *place))?;
        Some((place, rule))
    };
    let (place, rule) = (0..RULES.len()).filter_map(first).min()?;
    Some(at_fault(RULES[rule].0, place))
}

/// The refusal of a record at a place.
fn at_fault(number: u8, place: usize) -> Answer {
    let part = place as u64;
    Answer { number, part }
}

/// The answer of an outcome.
pub fn answer(outcome: Result<usize, Answer>) -> Answer {
    match outcome {
        Ok(part) => Answer::success(part as u64),
        Err(refusal) => refusal,
    }
}

/// A refusal that is about no record.
fn refused<T>(number: u8) -> Result<T, Answer> {
    Err(Answer::refusal(number))
}

impl Record {
    /// The record that 14 bytes stand for.
    fn of(bytes: &[u8]) -> Record {
        let whole = number(bytes);
        Record {
            craft: (whole >> 96) as u32,
            block: (whole >> 84) as u32 % 4096,
            n: (whole >> 80) as u8 % 16,
            ten: Some(whole % (1 << 80)),
        }
    }

    /// A record offered, with a block of any length.
    pub fn offered((craft, block): Pair, n: u8, ten: &[u8]) -> Record {
        let ten = (ten.len() == 10).then(|| number(ten));
        Record {
            craft,
            block,
            n,
            ten,
        }
    }

    /// The numbers by which records are in order.
    fn pair(&self) -> Pair {
        (self.craft, self.block)
    }

    /// Rule 10: whether the spacecraft number is 0, or a number does not fit its field.
    fn out_of_range(&self) -> bool {
        self.craft == 0 || self.craft > 65535 || self.block > 4095
    }

    /// Rule 11: whether the number pair is not above that of the record before.
    fn not_above(&self, before: Option<&Record>) -> bool {
        before.is_some_and(|before| self.pair() <= before.pair())
    }

    /// Whether there are ten bytes and they have a fault.
    fn with_ten(&self, fault: impl Fn(u128) -> bool) -> bool {
        self.ten.is_some_and(fault)
    }

    /// The 14 bytes of a record that breaks no rule.
    fn bytes(&self) -> [u8; RECORD] {
        let numbers = (self.craft as u128) << 16 | (self.block as u128) << 4 | self.n as u128;
        let whole = numbers << 80 | self.ten.unwrap();
        whole.to_be_bytes()[2..].try_into().unwrap()
    }
}

impl Sheet {
    /// Reads a sheet.
    pub fn read(bytes: &[u8]) -> Sheet {
        let records: Vec<Record> = bytes.chunks_exact(RECORD).map(Record::of).collect();
        let whole = bytes.len() == RECORD * records.len() && records.len() <= MOST;
        let records = match fault(&records) {
            _ if !whole => refused(2),
            Some(refusal) => Err(refusal),
            None => Ok(records),
        };
        Sheet { records }
    }

    /// The records, or the refusal.
    fn whole(&self) -> Result<&[Record], Answer> {
        self.records.as_deref().map_err(|refusal| *refusal)
    }

    /// The number of records.
    pub fn count(&self) -> Result<usize, Answer> {
        Ok(self.whole()?.len())
    }

    /// The bytes of the record at a place, for a buffer of `room` bytes.
    pub fn at(&self, place: u64, room: usize) -> Result<[u8; RECORD], Answer> {
        let mut numbered = (0..).zip(self.whole()?);
        match numbered.find(|(k, _)| *k == place) {
            None => refused(12),
            Some(_) if room < RECORD => refused(5),
            Some((_, record)) => Ok(record.bytes()),
        }
    }

    /// The place of the record with a number pair.
    pub fn find(&self, pair: Pair) -> Result<usize, Answer> {
        let mut records = self.whole()?.iter();
        let place = records.position(|record| record.pair() == pair);
        place.map_or(refused(12), Ok)
    }

    /// The bytes that a record offered adds to the sheet, which is the used part of a buffer of
    /// `room` bytes, unless that is less than `used`.
    pub fn append(&self, room: usize, used: usize, one: &Record) -> Result<[u8; RECORD], Answer> {
        if used > room {
            return refused(2);
        }
        let records = self.whole()?;
        let place = records.len();
        let broken = RULES.iter().find(|rule| rule.1(one, records.last()));
        match broken.map(|rule| rule.0) {
            Some(2) => refused(2),
            Some(number) => Err(at_fault(number, place)),
            None if room - used < RECORD || place == MOST => refused(5),
            None => Ok(one.bytes()),
        }
    }
}
