//! Sheets made anew from a seed, that break no rule.

use crate::made::{below, mingled};
use crate::random::Random;
use std::collections::BTreeSet;

/// The numbers of a record: spacecraft and block.
pub type Pair = (u32, u32);

/// The greatest number pair.
pub const GREATEST: Pair = (65535, 4095);

/// The 14 bytes of a record.
pub fn record((craft, number): Pair, n: u8, block: &[u8; 10]) -> Vec<u8> {
    let numbers = craft << 16 | number << 4 | n as u32;
    [&numbers.to_be_bytes()[..], block].concat()
}

/// The number pair of a record.
pub fn pair_of(record: &[u8]) -> Pair {
    let numbers = u32::from_be_bytes(record[..4].try_into().unwrap());
    (numbers >> 16, numbers % 65536 / 16)
}

/// A number pair: anywhere, at a limit, or among few.
fn pair(random: &mut Random) -> Pair {
    let craft = match random.below(4) {
        0 => random.below(65535) as u32 + 1,
        1 => random.one(&[1, 255, 256, 257, 65534, 65535]),
        _ => random.below(4) as u32 + 30000,
    };
    let block = match random.below(4) {
        0 => random.one(&[0, 1, 15, 16, 255, 256, 4094, 4095]),
        1 => random.below(4) as u32,
        _ => random.below(4096) as u32,
    };
    (craft, block)
}

/// As many number pairs, in order, without the greatest of all, so that another can follow them.
pub fn pairs(count: usize, random: &mut Random) -> Vec<Pair> {
    let mut pairs = BTreeSet::new();
    while pairs.len() < count {
        pairs.insert(pair(random));
        pairs.remove(&GREATEST);
    }
    pairs.into_iter().collect()
}

/// A sheet with these number pairs.
pub fn sheet_of(pairs: &[Pair], random: &mut Random) -> Vec<u8> {
    let mut sheet = vec![];
    for pair in pairs {
        let n = random.below(10) as u8;
        sheet.extend(record(*pair, n, &mingled(&below(n), random)));
    }
    sheet
}

/// A sheet of as many records, that another can follow.
pub fn sheet(count: usize, random: &mut Random) -> Vec<u8> {
    let pairs = pairs(count, random);
    sheet_of(&pairs, random)
}
