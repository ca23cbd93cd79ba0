//! Damages to a sheet. Some may by chance leave it as it was, or right in another way.

use crate::blemish::{byte_changed, put_field, BLEMISHES};
use crate::made::{below, mingled};
use crate::random::Random;
use crate::sheets::made::{pair_of, Pair};
use crate::sheets::second::RECORD;

/// A damage to a sheet, at or about the record at a place.
pub type Damage = fn(&mut Vec<u8>, usize, &mut Random);

/// The damages to a sheet.
pub const DAMAGES: [Damage; 22] = [
    bit_turned,
    one_byte_changed,
    craft_zero,
    craft_moved,
    craft_limit,
    block_moved,
    block_limit,
    n_changed,
    pair_repeated,
    pair_descends,
    block_damaged,
    block_damaged_twice,
    block_of_another_n,
    exchanged,
    doubled,
    zeroed,
    all_ones,
    all_chance,
    removed,
    byte_inserted,
    byte_removed,
    cut,
];

/// The bytes of the record at a place.
fn record(sheet: &mut [u8], place: usize) -> &mut [u8] {
    &mut sheet[RECORD * place..RECORD * (place + 1)]
}

/// Sets the number pair of a record, each number cut to its field.
fn put_pair(record: &mut [u8], (craft, block): Pair) {
    let numbers = craft << 16 | block % 4096 << 4 | record[3] as u32 % 16;
    record[..4].copy_from_slice(&numbers.to_be_bytes());
}

/// A bit of the record is turned.
fn bit_turned(sheet: &mut Vec<u8>, place: usize, random: &mut Random) {
    record(sheet, place)[random.below(RECORD)] ^= 1 << random.below(8);
}

/// A byte of the record is another.
fn one_byte_changed(sheet: &mut Vec<u8>, place: usize, random: &mut Random) {
    byte_changed(record(sheet, place), random);
}

/// The spacecraft number is 0.
fn craft_zero(sheet: &mut Vec<u8>, place: usize, _: &mut Random) {
    record(sheet, place)[..2].fill(0);
}

/// The spacecraft number is one more or one less.
fn craft_moved(sheet: &mut Vec<u8>, place: usize, random: &mut Random) {
    let record = record(sheet, place);
    let (craft, block) = pair_of(record);
    put_pair(record, (craft.wrapping_add(random.one(&[1, !0])), block));
}

/// The spacecraft number is at a limit.
fn craft_limit(sheet: &mut Vec<u8>, place: usize, random: &mut Random) {
    let record = record(sheet, place);
    let craft = random.one(&[0, 1, 255, 256, 32768, 65535]);
    put_pair(record, (craft, pair_of(record).1));
}

/// The block number is one more or one less.
fn block_moved(sheet: &mut Vec<u8>, place: usize, random: &mut Random) {
    let record = record(sheet, place);
    let (craft, block) = pair_of(record);
    put_pair(record, (craft, block.wrapping_add(random.one(&[1, !0]))));
}

/// The block number is at a limit.
fn block_limit(sheet: &mut Vec<u8>, place: usize, random: &mut Random) {
    let record = record(sheet, place);
    let block = random.one(&[0, 15, 16, 2048, 4095]);
    put_pair(record, (pair_of(record).0, block));
}

/// n is another, up to 15.
fn n_changed(sheet: &mut Vec<u8>, place: usize, random: &mut Random) {
    put_field(record(sheet, place), 7, random.below(16) as u8);
}

/// The record has the number pair of the one before it; the first stays.
fn pair_repeated(sheet: &mut Vec<u8>, place: usize, _: &mut Random) {
    let pair = pair_of(record(sheet, place.saturating_sub(1)));
    put_pair(record(sheet, place), pair);
}

/// The spacecraft number is less than that of the record before, the block number not.
fn pair_descends(sheet: &mut Vec<u8>, place: usize, random: &mut Random) {
    let (craft, block) = pair_of(record(sheet, place.saturating_sub(1)));
    let less = random.below(craft.max(1) as usize) as u32;
    let more = random.below(4096 - block as usize) as u32;
    put_pair(record(sheet, place), (less, block + more));
}

/// The block is damaged.
fn block_damaged(sheet: &mut Vec<u8>, place: usize, random: &mut Random) {
    random.one(&BLEMISHES)(&mut record(sheet, place)[4..], random);
}

/// The block is damaged in two ways.
fn block_damaged_twice(sheet: &mut Vec<u8>, place: usize, random: &mut Random) {
    block_damaged(sheet, place, random);
    block_damaged(sheet, place, random);
}

/// The block is right for another n.
fn block_of_another_n(sheet: &mut Vec<u8>, place: usize, random: &mut Random) {
    let n = random.below(10) as u8;
    record(sheet, place)[4..].copy_from_slice(&mingled(&below(n), random));
}

/// The record changes places with another.
fn exchanged(sheet: &mut Vec<u8>, place: usize, random: &mut Random) {
    let other = random.below(sheet.len() / RECORD);
    for k in 0..RECORD {
        sheet.swap(RECORD * place + k, RECORD * other + k);
    }
}

/// The record stands twice.
fn doubled(sheet: &mut Vec<u8>, place: usize, _: &mut Random) {
    let copy = record(sheet, place).to_vec();
    sheet.splice(RECORD * place..RECORD * place, copy);
}

/// Every bit of the record is 0.
fn zeroed(sheet: &mut Vec<u8>, place: usize, _: &mut Random) {
    record(sheet, place).fill(0);
}

/// Every bit of the record is 1.
fn all_ones(sheet: &mut Vec<u8>, place: usize, _: &mut Random) {
    record(sheet, place).fill(0xFF);
}

/// Every byte of the record is by chance.
fn all_chance(sheet: &mut Vec<u8>, place: usize, random: &mut Random) {
    record(sheet, place).fill_with(|| random.bits() as u8);
}

/// The record is taken out.
fn removed(sheet: &mut Vec<u8>, place: usize, _: &mut Random) {
    sheet.drain(RECORD * place..RECORD * (place + 1));
}

/// A byte by chance stands before some byte of the record.
fn byte_inserted(sheet: &mut Vec<u8>, place: usize, random: &mut Random) {
    sheet.insert(RECORD * place + random.below(RECORD), random.bits() as u8);
}

/// A byte of the record is taken out.
fn byte_removed(sheet: &mut Vec<u8>, place: usize, random: &mut Random) {
    sheet.remove(RECORD * place + random.below(RECORD));
}

/// The sheet ends before some byte of the record.
fn cut(sheet: &mut Vec<u8>, place: usize, random: &mut Random) {
    sheet.truncate(RECORD * place + random.below(RECORD));
}
