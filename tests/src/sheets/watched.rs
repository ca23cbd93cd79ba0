//! A question about a sheet, and what is left behind when the product is asked and when the
//! second reader and writer is.

use crate::hexadecimal::hexadecimal;
use crate::lent::{Left, Lent};
use crate::library::{sheet_append, sheet_check, sheet_find, sheet_read};
use crate::sheets::made::Pair;
use crate::sheets::second::{answer, Record, Sheet, RECORD};
use std::fmt::{Display, Formatter, Result};

/// A record offered to a sheet.
#[derive(Clone)]
pub struct Offer {
    pub pair: Pair,
    pub n: u8,
    pub ten: Vec<u8>,
}

/// A question about a sheet. To append, the sheet is the used part of a buffer of `room` bytes, and
/// `used` its length; or `used` is above `room`, and of the sheet the buffer has what it holds.
pub enum Question {
    Check,
    Read {
        place: u64,
        room: usize,
    },
    Find {
        pair: Pair,
    },
    Append {
        room: usize,
        used: usize,
        offer: Offer,
    },
}

/// The buffers that a question lends: the one with the sheet, and the one read into or the ten
/// bytes offered.
fn lent(question: &Question, sheet: &[u8], filling: u8) -> [Lent; 2] {
    match question {
        Question::Check | Question::Find { .. } => [Lent::of(sheet, filling), Lent::none()],
        Question::Read { room, .. } => [Lent::of(sheet, filling), Lent::room(*room, filling)],
        Question::Append { room, offer, .. } => [
            Lent::begun(sheet, *room, filling),
            Lent::of(&offer.ten, filling),
        ],
    }
}

/// Asks the product.
pub fn product(question: &Question, sheet: &[u8], filling: u8) -> Left {
    let [mut sheet, mut other] = lent(question, sheet, filling);
    let answer = match question {
        Question::Check => sheet_check(sheet.bytes()),
        Question::Read { place, .. } => sheet_read(sheet.bytes(), *place, other.bytes_mut()),
        Question::Find { pair } => sheet_find(sheet.bytes(), *pair),
        Question::Append { used, offer, .. } => {
            let (pair, n) = (offer.pair, offer.n);
            sheet_append(sheet.bytes_mut(), *used, pair, n, other.bytes())
        }
    };
    Left::after(answer, [sheet, other])
}

/// Asks the second reader and writer, which has read the sheet.
pub fn second(question: &Question, sheet: &[u8], read: &Sheet, filling: u8) -> Left {
    let mut lent = lent(question, sheet, filling);
    let outcome = match question {
        Question::Check => read.count(),
        Question::Read { place, room } => read.at(*place, *room).map(|record| {
            lent[1].put(0, &record);
            RECORD
        }),
        Question::Find { pair } => read.find(*pair),
        Question::Append { room, used, offer } => {
            let added = read.append(*room, *used, &offer.record());
            added.map(|record| {
                lent[0].put(*used, &record);
                used + RECORD
            })
        }
    };
    let answer = answer(outcome);
    Left { answer, lent }
}

impl Offer {
    /// The record as the second reader and writer has it.
    pub fn record(&self) -> Record {
        Record::offered(self.pair, self.n, &self.ten)
    }
}

impl Display for Offer {
    /// The record, for a reader of a difference.
    fn fmt(&self, to: &mut Formatter) -> Result {
        let (craft, block) = self.pair;
        let (n, ten) = (self.n, hexadecimal(&self.ten));
        write!(to, "craft {craft}, block {block}, n {n}, bytes {ten}")
    }
}

impl Display for Question {
    /// The question, for a reader of a difference.
    fn fmt(&self, to: &mut Formatter) -> Result {
        match self {
            Question::Check => write!(to, "check"),
            Question::Read { place, room } => write!(to, "read place {place}, room {room}"),
            Question::Find { pair } => write!(to, "find craft {}, block {}", pair.0, pair.1),
            Question::Append { room, used, offer } => {
                write!(to, "append to {used} bytes used of {room}: {offer}")
            }
        }
    }
}
