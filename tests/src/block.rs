//! What a block computes, read from its ten bytes as document 01 with request 3 says.

use crate::table::table_of;
use crate::ten::{fields, number, OPEN, OPEN_LEVEL};

/// The places of the first rows of F, G and H among the 80 bits.
const F_ROWS: usize = 36;
const G_ROWS: usize = 52;
const H_ROWS: usize = 68;

/// One of the 80 bits, the most significant being bit 0.
fn bit(ten: u128, place: usize) -> usize {
    (ten >> (79 - place)) as usize % 2
}

/// What a pin with this field reads at a row of the function.
fn pin_value(field: u8, row: usize) -> usize {
    match field {
        OPEN => OPEN_LEVEL,
        variable => row >> variable & 1,
    }
}

/// The output at a row of the four-pin table with these fields, whose rows begin at this place.
fn output(ten: u128, pins: &[u8], rows: usize, row: usize) -> usize {
    let read = pins
        .iter()
        .fold(0, |before, pin| 2 * before + pin_value(*pin, row));
    bit(ten, rows + read)
}

/// What the block computes at a row of the function.
pub fn value(block: &[u8; 10], row: usize) -> usize {
    let ten = number(block);
    let pins = fields(ten);
    let f = output(ten, &pins[..4], F_ROWS, row);
    let g = output(ten, &pins[4..8], G_ROWS, row);
    bit(ten, H_ROWS + 4 * f + 2 * g + pin_value(pins[8], row))
}

/// The table that the block computes on n inputs.
pub fn computed(n: usize, block: &[u8; 10]) -> Vec<u8> {
    table_of(n, |row| value(block, row) == 1)
}
