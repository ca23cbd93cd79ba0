//! Second versions of checking, evaluating, typing and packing, made only to check the product's.
//!
//! The rules of ten.rs are asked each by itself of a block as one number, and the first that is
//! broken gives the refusal. The type comes from the sets of variables that F and G carry. Packing
//! joins the parts to one number and asks the rules of it.

use crate::block::value;
use crate::blocks::parts::Parts;
use crate::library::Answer;
use crate::ten::{
    bytes, end_wrong, field_wrong, fields, joined, number, out_of_order, out_of_range, row_wrong,
    OPEN,
};
use std::collections::BTreeSet;

/// The ten bytes of a number, or the number of the first refusal that applies, in the order given.
fn unless<const K: usize>(refusals: [(u8, bool); K], ten: u128) -> Result<[u8; 10], u8> {
    match refusals.into_iter().find(|(_, applies)| *applies) {
        Some((number, _)) => Err(number),
        None => Ok(bytes(ten)),
    }
}

/// The ten bytes of a tidy block of n inputs, or the number of the refusal.
fn tidy_block(n: u8, block: &[u8]) -> Result<[u8; 10], u8> {
    let ten = number(&block[..block.len().min(10)]);
    let refusals = [
        (1, n > 9),
        (2, block.len() != 10),
        (6, field_wrong(n, ten)),
        (7, out_of_order(ten)),
        (8, row_wrong(ten)),
        (9, end_wrong(ten)),
    ];
    unless(refusals, ten)
}

/// The answer about a block that is tidy, or its refusal.
fn about(n: u8, block: &[u8], part: impl Fn([u8; 10]) -> u64) -> Answer {
    match tidy_block(n, block) {
        Ok(block) => Answer::success(part(block)),
        Err(number) => Answer::refusal(number),
    }
}

/// Whether bytes are a tidy block.
pub fn check(n: u8, block: &[u8]) -> Answer {
    about(n, block, |_| 0)
}

/// A block's value at a row.
pub fn evaluate(n: u8, block: &[u8], row: u32) -> Answer {
    let answer = about(n, block, |block| value(&block, row as usize) as u64);
    match answer.number {
        0 if row as u64 >= 1 << n => Answer::refusal(13),
        _ => answer,
    }
}

/// The variables that some pins carry.
fn carried(pins: &[u8]) -> BTreeSet<u8> {
    pins.iter().copied().filter(|pin| *pin != OPEN).collect()
}

/// The letter and the digit of a block with these pins.
fn letter_and_digit(pins: [u8; 9]) -> (u8, u8) {
    let (f, g, direct) = (carried(&pins[..4]), carried(&pins[4..8]), pins[8]);
    let times = [&f, &g].iter().filter(|set| set.contains(&direct)).count();
    let shared = f.intersection(&g).filter(|variable| **variable != direct);
    (b"ABC"[times], shared.count() as u8)
}

/// The part of an answer that is a letter and a digit.
fn type_part((letter, digit): (u8, u8)) -> u64 {
    (digit as u64) << 8 | letter as u64
}

/// A block's type.
pub fn type_of(n: u8, block: &[u8]) -> Answer {
    let part = |block: [u8; 10]| type_part(letter_and_digit(fields(number(&block))));
    about(n, block, part)
}

/// The answer of a type that is written as `A-0`.
pub fn typed(text: &str) -> Answer {
    match *text.as_bytes() {
        [letter, b'-', digit] => Answer::success(type_part((letter, digit - b'0'))),
        _ => panic!("not a type: {text}"),
    }
}

/// The ten bytes of parts, for a buffer of `room` bytes, or the number of the refusal.
pub fn pack(parts: &Parts, room: usize) -> Result<[u8; 10], u8> {
    let wrong = |field: &u8| out_of_range(parts.n, *field);
    let cut = parts.fields.map(|field| field % 16);
    let ten = joined(&cut, parts.tables);
    let refusals = [
        (1, parts.n > 9),
        (6, parts.fields.iter().any(wrong)),
        (7, out_of_order(ten)),
        (8, row_wrong(ten)),
        (5, room < 10),
    ];
    unless(refusals, ten)
}

#[cfg(test)]
mod tests {
    use super::*;
    use crate::document::{matches, passing_block, refused_blocks};
    use crate::table::table_of;

    #[test]
    fn agree_with_the_blocks_of_document_01() {
        for example in matches() {
            let (n, block) = (example.n, &example.block);
            assert_eq!(check(n, block), Answer::success(0));
            let one = |row| evaluate(n, block, row as u32) == Answer::success(1);
            assert_eq!(table_of(n as usize, one), example.table);
            assert_eq!(type_of(n, block), typed(example.kind));
            assert_eq!(pack(&Parts::of(n, block), 10), Ok(*block));
        }
    }

    #[test]
    fn take_the_bytes_of_p12() {
        let (n, block) = passing_block();
        assert_eq!(check(n, &block), Answer::success(0));
        assert_eq!(evaluate(n, &block, 0), Answer::success(1));
        assert_eq!(pack(&Parts::of(n, &block), 10), Ok(block));
    }

    #[test]
    fn refuse_the_wrong_blocks_of_document_01() {
        for (n, block, number) in refused_blocks() {
            let refusal = Answer::refusal(number);
            assert_eq!(check(n, &block), refusal);
            assert_eq!(evaluate(n, &block, 9999), refusal);
            assert_eq!(type_of(n, &block), refusal);
            let packed = pack(&Parts::of(n, &block), 9);
            assert_eq!(packed, Err(if number == 9 { 5 } else { number }));
        }
    }

    #[test]
    fn refuse_in_the_order_of_document_01() {
        let mut block = bytes(0xA0_00_FF_FF_FF_FF_00_00_00_01);
        assert_eq!(evaluate(10, &block[1..], 512).number, 1);
        assert_eq!(evaluate(9, &block[1..], 512).number, 2);
        assert_eq!(evaluate(9, &block, 512).number, 6);
        block[0] = 0x00;
        assert_eq!(evaluate(9, &block, 512).number, 7);
        block[..2].fill(0xFF);
        assert_eq!(evaluate(9, &block, 512).number, 8);
        block[4..7].copy_from_slice(&[0xF0, 0, 0]);
        assert_eq!(evaluate(9, &block, 512).number, 9);
        block[9] = 0;
        assert_eq!(evaluate(9, &block, 512).number, 13);
    }
}
