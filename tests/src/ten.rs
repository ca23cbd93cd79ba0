//! The ten bytes of a block as one number of 80 bits, and the rules of document 01 with request 3
//! for them, each by itself.

use std::iter::repeat;

/// The field of an open pin.
pub const OPEN: u8 = 15;

/// What an open pin reads.
pub const OPEN_LEVEL: usize = 1;

/// The number that bytes stand for, the first the most significant.
pub fn number(bytes: &[u8]) -> u128 {
    let with_next = |before, byte: &u8| before << 8 | *byte as u128;
    bytes.iter().fold(0, with_next)
}

/// The ten bytes of a number of 80 bits.
pub fn bytes(ten: u128) -> [u8; 10] {
    ten.to_be_bytes()[6..].try_into().expect("ten bytes")
}

/// The number of nine pin fields below 16 and the rows of F, G and H.
pub fn joined(fields: &[u8; 9], (f, g, h): (u16, u16, u8)) -> u128 {
    let with_next = |before, field: &u8| before << 4 | *field as u128;
    let pins = fields.iter().fold(0, with_next);
    (((pins << 16 | f as u128) << 16 | g as u128) << 8 | h as u128) << 4
}

/// The nine pin fields.
pub fn fields(ten: u128) -> [u8; 9] {
    std::array::from_fn(|pin| (ten >> (76 - 4 * pin)) as u8 % 16)
}

/// Whether a field is neither below n nor open.
pub fn out_of_range(n: u8, field: u8) -> bool {
    (0..n).chain([OPEN]).all(|one| one != field)
}

/// Rule 6: whether some field is neither below n nor open.
pub fn field_wrong(n: u8, ten: u128) -> bool {
    fields(ten).into_iter().any(|field| out_of_range(n, field))
}

/// Whether four pins are not what their set of variables asks for: the variables in order, each
/// once, then open pins.
fn unlike_set(pins: &[u8]) -> bool {
    let carried = (0..OPEN).filter(|variable| pins.contains(variable));
    !carried.chain(repeat(OPEN)).take(4).eq(pins.iter().copied())
}

/// Rule 7: whether F or G is out of order, repeated, or open before carried.
pub fn out_of_order(ten: u128) -> bool {
    let fields = fields(ten);
    unlike_set(&fields[..4]) || unlike_set(&fields[4..8])
}

/// Whether a table holds a 1 in a row that needs a 0 on an open pin. The first pin weighs most, and
/// row 0 is the highest bit of the rows.
fn needs_open(open: &[bool], rows: u128) -> bool {
    let count = 1 << open.len();
    let holds_1 = |row: &usize| rows >> (count - 1 - row) & 1 == 1;
    let pins = || open.iter().rev().enumerate();
    let needs = |row: usize| pins().any(|(weight, open)| *open && row >> weight & 1 != OPEN_LEVEL);
    (0..count).filter(holds_1).any(needs)
}

/// Rule 8: whether a row of F, G or H that needs a 0 on an open pin is set.
pub fn row_wrong(ten: u128) -> bool {
    let open = fields(ten).map(|field| field == OPEN);
    needs_open(&open[..4], ten >> 28 & 0xFFFF)
        || needs_open(&open[4..8], ten >> 12 & 0xFFFF)
        || needs_open(&[false, false, open[8]], ten >> 4 & 0xFF)
}

/// Rule 9: whether the last four bits are not zero.
pub fn end_wrong(ten: u128) -> bool {
    ten % 16 != 0
}

/// Whether ten bytes are a tidy block of n inputs, n at most 9.
pub fn tidy(n: u8, block: &[u8; 10]) -> bool {
    let ten = number(block);
    !(field_wrong(n, ten) || out_of_order(ten) || row_wrong(ten) || end_wrong(ten))
}
