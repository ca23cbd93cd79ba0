//! The examples of document 01 with request 3, in which an open pin reads 1.

use crate::table::table_of;
use crate::ten::bytes;

/// A table with a match: its type and its ten bytes.
pub struct Matched {
    pub n: u8,
    pub table: Vec<u8>,
    pub kind: &'static str,
    pub block: [u8; 10],
}

/// An example with a match, its ten bytes given as one number.
fn matched(n: u8, table: Vec<u8>, kind: &'static str, ten: u128) -> Matched {
    let block = bytes(ten);
    Matched {
        n,
        table,
        kind,
        block,
    }
}

/// P1 to P8.
pub fn matches() -> [Matched; 8] {
    let and = |n: usize| table_of(n, |row| row == (1 << n) - 1);
    let parity = |n: usize| table_of(n, |row| row.count_ones() % 2 == 1);
    let four = vec![0, 0, 0xFF, 0xFF];
    [
        matched(0, vec![0x80], "A-0", 0xFF_FF_FF_FF_F0_00_00_00_04_00),
        matched(0, vec![0x00], "A-0", 0xFF_FF_FF_FF_F0_00_00_00_00_00),
        matched(1, vec![0x40], "C-0", 0x0F_FF_0F_FF_00_00_00_00_04_00),
        matched(5, four, "A-4", 0x01_23_01_23_40_00_00_00_04_00),
        matched(6, and(6), "A-3", 0x01_23_01_24_50_00_10_00_10_10),
        matched(6, parity(6), "A-3", 0x01_23_01_24_55_55_56_99_66_90),
        matched(9, parity(9), "A-0", 0x01_23_45_67_86_99_66_99_66_90),
        matched(9, and(9), "A-0", 0x01_23_45_67_80_00_10_00_10_10),
    ]
}

/// P9 and Q1 to Q3: n, a table, and the number with which matching refuses it.
pub fn refused_tables() -> [(u8, Vec<u8>, u8); 4] {
    let at_least_five = table_of(9, |row| row.count_ones() >= 5);
    [
        (2, vec![0x81], 3),
        (9, at_least_five, 4),
        (10, vec![0; 128], 1),
        (4, vec![0], 2),
    ]
}

/// P10, P11, P1 as document 01 has it and Q4: n, ten bytes, and the number with which checking
/// refuses them.
pub fn refused_blocks() -> [(u8, [u8; 10], u8); 4] {
    [
        (1, bytes(0x1F_FF_FF_FF_F0_00_00_00_00_00), 6),
        (2, bytes(0x10_FF_FF_FF_F0_00_00_00_00_00), 7),
        (0, bytes(0xFF_FF_FF_FF_F0_00_00_00_08_00), 8),
        (1, bytes(0x0F_FF_0F_FF_00_00_00_00_04_01), 9),
    ]
}

/// P12: n and ten bytes, which pass.
pub fn passing_block() -> (u8, [u8; 10]) {
    (0, bytes(0xFF_FF_FF_FF_F0_00_00_00_04_00))
}
