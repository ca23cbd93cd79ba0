//! What is packed: n, nine pin fields and three tables, right or not.

use crate::random::Random;
use crate::ten::{fields, number};
use std::fmt::{Display, Formatter, Result};

/// What is packed.
pub struct Parts {
    pub n: u8,
    pub fields: [u8; 9],
    /// The rows of F, of G and of H.
    pub tables: (u16, u16, u8),
}

/// Damages to parts. Some may by chance leave them as they were, or right in another way.
pub const DAMAGES: [fn(&mut Parts, &mut Random); 8] = [
    n_changed,
    field_at_limit,
    field_far,
    field_chance,
    fields_exchanged,
    field_repeated,
    pin_opened,
    tables_chance,
];

impl Parts {
    /// The parts of ten bytes.
    pub fn of(n: u8, block: &[u8; 10]) -> Parts {
        let ten = number(block);
        Parts {
            n,
            fields: fields(ten),
            tables: ((ten >> 28) as u16, (ten >> 12) as u16, (ten >> 4) as u8),
        }
    }

    /// Parts by chance, the fields below 16 most of the time.
    pub fn chance(random: &mut Random) -> Parts {
        let limit = random.one(&[4, 10, 16, 16, 256]);
        Parts {
            n: random.below(12) as u8,
            fields: std::array::from_fn(|_| random.below(limit) as u8),
            tables: tables(random),
        }
    }
}

/// Tables by chance, now and then without a single 1.
fn tables(random: &mut Random) -> (u16, u16, u8) {
    let mut rows = || random.bits() & random.one(&[0, !0]);
    (rows() as u16, rows() as u16, rows() as u8)
}

/// n is another.
fn n_changed(parts: &mut Parts, random: &mut Random) {
    let any = random.bits() as u8;
    parts.n = random.one(&[0, 1, 8, 9, 10, 15, 16, 255, any]);
}

/// A field is one from 9 to 16, or n.
fn field_at_limit(parts: &mut Parts, random: &mut Random) {
    let limits = [9, 10, 11, 12, 13, 14, 15, 16, parts.n];
    parts.fields[random.below(9)] = random.one(&limits);
}

/// A field is 16 or more; cut to four bits it may be right.
fn field_far(parts: &mut Parts, random: &mut Random) {
    let pin = random.below(9);
    let far = [parts.fields[pin].wrapping_add(16), 31, 128, 240, 255];
    parts.fields[pin] = random.one(&far);
}

/// A field is by chance.
fn field_chance(parts: &mut Parts, random: &mut Random) {
    parts.fields[random.below(9)] = random.bits() as u8;
}

/// Two pins change places.
fn fields_exchanged(parts: &mut Parts, random: &mut Random) {
    parts.fields.swap(random.below(9), random.below(9));
}

/// A pin carries what the pin before it does.
fn field_repeated(parts: &mut Parts, random: &mut Random) {
    let pin = 1 + random.below(8);
    parts.fields[pin] = parts.fields[pin - 1];
}

/// The last pin of F, of G or of H is opened, and its rows stay.
fn pin_opened(parts: &mut Parts, random: &mut Random) {
    parts.fields[random.one(&[3, 7, 8])] = 15;
}

/// The tables are by chance.
fn tables_chance(parts: &mut Parts, random: &mut Random) {
    parts.tables = tables(random);
}

impl Display for Parts {
    /// The parts, for a reader of a difference.
    fn fmt(&self, to: &mut Formatter) -> Result {
        let (n, fields, (f, g, h)) = (self.n, self.fields, self.tables);
        write!(
            to,
            "n {n}, fields {fields:?}, F {f:04X}, G {g:04X}, H {h:02X}"
        )
    }
}
