//! Damages to the ten bytes of a block. Some may by chance leave them as they were, or right in
//! another way.

use crate::random::Random;

/// A damage to the ten bytes of a block.
pub type Blemish = fn(&mut [u8], &mut Random);

/// The damages to a block.
pub const BLEMISHES: [Blemish; 7] = [
    field_changed,
    pins_exchanged,
    pin_repeated,
    pin_opened,
    row_set,
    end_set,
    byte_changed,
];

/// The field of four bits at a place among some bytes.
fn field(bytes: &[u8], place: usize) -> u8 {
    bytes[place / 2] >> (4 - place % 2 * 4) & 15
}

/// Sets the field of four bits at a place among some bytes.
pub fn put_field(bytes: &mut [u8], place: usize, value: u8) {
    let other = field(bytes, place ^ 1);
    bytes[place / 2] = match place % 2 {
        0 => value << 4 | other,
        _ => other << 4 | value,
    };
}

/// A pin carries another variable, none, or what there is none of.
fn field_changed(ten: &mut [u8], random: &mut Random) {
    put_field(ten, random.below(9), random.below(16) as u8);
}

/// Two pins of F or of G change places.
fn pins_exchanged(ten: &mut [u8], random: &mut Random) {
    let first = random.one(&[0, 4]);
    let (one, other) = (first + random.below(4), first + random.below(4));
    let (here, there) = (field(ten, one), field(ten, other));
    put_field(ten, one, there);
    put_field(ten, other, here);
}

/// A pin carries what the pin before it does.
fn pin_repeated(ten: &mut [u8], random: &mut Random) {
    let pin = random.one(&[1, 2, 3, 5, 6, 7, 8]);
    put_field(ten, pin, field(ten, pin - 1));
}

/// The last pin of F, of G or of H is opened, and its rows stay.
fn pin_opened(ten: &mut [u8], random: &mut Random) {
    put_field(ten, random.one(&[3, 7, 8]), 15);
}

/// A row of F, G or H holds 1.
fn row_set(ten: &mut [u8], random: &mut Random) {
    let bit = 36 + random.below(40);
    ten[bit / 8] |= 0x80 >> (bit % 8);
}

/// Some of the last four bits are 1.
fn end_set(ten: &mut [u8], random: &mut Random) {
    put_field(ten, 19, 1 + random.below(15) as u8);
}

/// A byte is another.
pub fn byte_changed(bytes: &mut [u8], random: &mut Random) {
    bytes[random.below(bytes.len())] = random.bits() as u8;
}
