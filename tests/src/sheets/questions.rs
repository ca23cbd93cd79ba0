//! What is asked about a sheet, right or damaged.

use crate::blemish::BLEMISHES;
use crate::made::{below, mingled};
use crate::random::Random;
use crate::sheets::made::{pair_of, Pair};
use crate::sheets::second::RECORD;
use crate::sheets::watched::{Offer, Question};

/// The number pair of the record at a place of a sheet, or a pair where there is no record.
fn pair_at(sheet: &[u8], place: usize) -> Pair {
    let record = sheet.chunks_exact(RECORD).nth(place);
    record.map_or((1, 0), pair_of)
}

/// The place of the last record, or 0 if there is none.
fn last(sheet: &[u8]) -> usize {
    (sheet.len() / RECORD).saturating_sub(1)
}

/// Readings at places that are there and places that are not, into more room and less.
fn reads(sheet: &[u8], random: &mut Random) -> Vec<Question> {
    let (last, count) = (last(sheet) as u64, (sheet.len() / RECORD) as u64);
    let within = random.below(sheet.len() / RECORD + 2) as u64;
    let far = within + (1 << random.one(&[8, 16, 32, 56, 63]));
    let mut asked = vec![];
    for place in [0, last, count, within, far, u64::MAX] {
        for room in [0, RECORD - 1, RECORD, 20] {
            asked.push(Question::Read { place, room });
        }
    }
    asked
}

/// Number pairs that are there, their neighbours, and pairs out of range that a number cut short
/// would take for one that is there.
fn finds(sheet: &[u8], random: &mut Random) -> Vec<Question> {
    let there = random.below(last(sheet) + 1);
    let (craft, block) = pair_at(sheet, there);
    let (less, lower) = (craft.wrapping_sub(1), block.wrapping_sub(1));
    let crafts = [0, less, craft + 1, 65535, 65536, 65536 + craft, u32::MAX];
    let blocks = [lower, block + 1, 4095, 4096, 4096 + block, u32::MAX];
    let ends = [0, last(sheet), there].map(|place| pair_at(sheet, place));
    let mut pairs = ends.to_vec();
    pairs.extend(crafts.map(|craft| (craft, block)));
    pairs.extend(blocks.map(|block| (craft, block)));
    pairs.extend([(65535, 4095), (less, 4096 + block), (block, craft)]);
    let find = |pair| Question::Find { pair };
    pairs.into_iter().map(find).collect()
}

/// The number pair that comes after the last of a sheet.
fn next_pair(sheet: &[u8]) -> Pair {
    match pair_at(sheet, last(sheet)) {
        (craft, 4095) => (craft + 1, 0),
        (craft, block) => (craft, block + 1),
    }
}

/// Number pairs to offer that are out of range or not above the last.
fn wrong_pairs(sheet: &[u8]) -> [Pair; 10] {
    let (craft, block) = pair_at(sheet, last(sheet));
    let (next, number) = next_pair(sheet);
    [
        (craft, block),
        (craft, block.saturating_sub(1)),
        (craft.saturating_sub(1), 4095),
        (0, number),
        (65536, number),
        (65536 + next, number),
        (u32::MAX, number),
        (next, 4096),
        (next, 4096 + number),
        (next, u32::MAX),
    ]
}

/// A record with this number pair and a tidy block.
pub fn offer(pair: Pair, random: &mut Random) -> Offer {
    let n = random.below(10) as u8;
    let ten = mingled(&below(n), random).to_vec();
    Offer { pair, n, ten }
}

/// A record that may follow a sheet, unless this ends in the greatest number pair.
fn right(sheet: &[u8], random: &mut Random) -> Offer {
    offer(next_pair(sheet), random)
}

/// Records that are right but for one thing: the number pair, n, the block's length, the block.
fn one_fault(sheet: &[u8], random: &mut Random) -> Vec<Offer> {
    let right = right(sheet, random);
    let with_pair = |pair| Offer {
        pair,
        ..right.clone()
    };
    let with_n = |n| Offer { n, ..right.clone() };
    let mut all = wrong_pairs(sheet).map(with_pair).to_vec();
    all.extend([10, 15, 16, 16 + right.n, 255].map(with_n));
    for length in [0, 9, 11, 26] {
        let mut offer = right.clone();
        offer.ten.resize(length, 0);
        all.push(offer);
    }
    for blemish in BLEMISHES {
        let mut offer = right.clone();
        blemish(&mut offer.ten, random);
        all.push(offer);
    }
    all
}

/// A record with faults in any mixture.
fn mixed(sheet: &[u8], random: &mut Random) -> Offer {
    let mut offer = right(sheet, random);
    if random.below(4) == 0 {
        offer.pair = random.one(&wrong_pairs(sheet));
    }
    if random.below(4) == 0 {
        offer.n = random.one(&[0, 9, 10, 15, 16, 16 + offer.n, 255]);
    }
    while random.below(2) == 0 {
        random.one(&BLEMISHES)(&mut offer.ten, random);
    }
    if random.below(6) == 0 {
        offer.ten.resize(random.one(&[0, 9, 11, 26]), 255);
    }
    offer
}

/// A record offered to a sheet in a buffer of `room` bytes.
pub fn append(sheet: &[u8], room: usize, offer: Offer) -> Question {
    let used = sheet.len();
    Question::Append { room, used, offer }
}

/// Room for a sheet and somewhat more, or now and then less than the sheet.
fn some_room(sheet: &[u8], random: &mut Random) -> usize {
    let more = random.one(&[0, 1, 13, 13, 14, 14, 14, 15, 28, 60]);
    match random.below(12) {
        0 => random.below(sheet.len() + 1),
        _ => sheet.len() + more,
    }
}

/// Every question that is asked of a damaged sheet, with this many records offered.
pub fn some(sheet: &[u8], offers: usize, random: &mut Random) -> Vec<Question> {
    let mut asked = vec![Question::Check];
    asked.extend(reads(sheet, random));
    asked.extend(finds(sheet, random));
    for _ in 0..offers {
        let (room, offer) = (some_room(sheet, random), mixed(sheet, random));
        asked.push(append(sheet, room, offer));
    }
    asked
}

/// Every question that is asked of a sheet made to be right: also records with one fault, right
/// ones in every room about the limits, and used lengths above the buffer's.
pub fn all(sheet: &[u8], random: &mut Random) -> Vec<Question> {
    let length = sheet.len();
    let mut asked = some(sheet, 40, random);
    for offer in one_fault(sheet, random) {
        asked.push(append(sheet, length + RECORD, offer));
    }
    let about = [0, 1, 13, 14, 15, 28].map(|more| length + more);
    let others = [0, length / 2, length.saturating_sub(1), 65534, 65548, 70000];
    for room in about.into_iter().chain(others) {
        asked.push(append(sheet, room, right(sheet, random)));
    }
    for used in [length + RECORD + 1, usize::MAX - 13, usize::MAX] {
        let (room, offer) = (length + RECORD, right(sheet, random));
        asked.push(Question::Append { room, used, offer });
    }
    asked
}
