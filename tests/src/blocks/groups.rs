//! The groups of blocks and parts: how those of each are made, and what is asked about them.

use crate::blemish::BLEMISHES;
use crate::block::computed;
use crate::blocks::judge::{Judge, Question};
use crate::blocks::parts::{Parts, DAMAGES};
use crate::blocks::second::typed;
use crate::document;
use crate::hexadecimal::hexadecimal;
use crate::lent::said;
use crate::library::Answer;
use crate::made::{below, either};
use crate::random::Random;
use crate::ten::{bytes, joined, OPEN};
use crate::vectors::Line;

/// How many blocks, and how many parts, are damaged by chance.
const DAMAGED: usize = 300_000;

/// How many blocks are asked for their value at every row.
const EVALUATED: usize = 2000;

/// How many blocks of the vectors have each bit turned.
const TURNED: usize = 100;

/// Rows that no table has, or that only some have.
const FAR: [u32; 7] = [2, 511, 512, 65536, 1 << 31, u32::MAX - 511, u32::MAX];

/// Asks a question of which the answer is known.
fn known(judge: &mut Judge, n: u8, block: &[u8; 10], question: Question, answer: Answer) {
    let given = judge.ask(n, block, question);
    if given != answer {
        let asked = format!("{question:?}, n {n}, bytes {}", hexadecimal(block));
        let both = format!("the product and the second {}", said(given));
        let known = format!("known: {}", said(answer));
        judge.tally.differ(&[asked, both, known]);
    }
}

/// A block of which the type and the table are known.
fn right(judge: &mut Judge, n: u8, table: &[u8], kind: &str, block: &[u8; 10]) {
    known(judge, n, block, Question::Check, Answer::success(0));
    known(judge, n, block, Question::Type, typed(kind));
    for row in 0..1 << n {
        let bit = table[row / 8] >> (7 - row % 8) & 1;
        let value = Answer::success(bit as u64);
        known(judge, n, block, Question::Evaluate(row as u32), value);
    }
    judge.parts(&Parts::of(n, block));
}

/// The examples of document 01.
fn examples(judge: &mut Judge) {
    for example in document::matches() {
        right(
            judge,
            example.n,
            &example.table,
            example.kind,
            &example.block,
        );
    }
    for (n, block, number) in document::refused_blocks() {
        known(judge, n, &block, Question::Check, Answer::refusal(number));
    }
    let (n, block) = document::passing_block();
    known(judge, n, &block, Question::Check, Answer::success(0));
}

/// A block of the vectors: as it stands, for every n, and in every length up to twelve bytes.
fn vector(judge: &mut Judge, line: &Line) {
    let Some(block) = line.block else { return };
    let kind = line.said.split(' ').next().unwrap_or_default();
    right(judge, line.n, &line.table, kind, &block);
    for n in 0..=255 {
        let beyond = 1u32.checked_shl(n as u32).unwrap_or(0);
        judge.block(n, &block, &[0, beyond.wrapping_sub(1), beyond]);
    }
    let longer = [&block[..], &[0, 0]].concat();
    for length in 0..=12 {
        judge.block(line.n, &longer[..length], &FAR);
    }
}

/// Parts for nine inputs, packed and as a block.
fn packed_and_asked(judge: &mut Judge, fields: [u8; 9], tables: (u16, u16, u8)) {
    let n = 9;
    judge.pack(&Parts { n, fields, tables }, 10);
    judge.block(n, &bytes(joined(&fields, tables)), &[0, 511]);
}

/// Every four fields on the pins of F, and on those of G.
fn every_four_fields(judge: &mut Judge) {
    for number in 0..=u16::MAX {
        for first in [0, 4] {
            let mut fields = [OPEN; 9];
            for (pin, field) in fields[first..first + 4].iter_mut().enumerate() {
                *field = (number >> (12 - 4 * pin)) as u8 % 16;
            }
            packed_and_asked(judge, fields, (0, 0, 0));
        }
    }
}

/// The fields of four pins that carry a set, variable i as bit i: in order, then open pins.
fn four(set: u16) -> [u8; 4] {
    let mut carried = (0..9).filter(|variable| set >> variable & 1 == 1);
    std::array::from_fn(|_| carried.next().unwrap_or(OPEN))
}

/// Pins in order: every count that F carries with every count of G, and every set of variables on
/// both; the direct pin open or not.
fn wirings() -> Vec<[u8; 9]> {
    let counts = (0..25).map(|pins| [(1 << (pins % 5)) - 1, (1 << (pins / 5)) - 1]);
    let sets = (0..512u16).filter(|set| set.count_ones() <= 4);
    let mut wirings = vec![];
    for sets in counts.chain(sets.map(|set| [set; 2])) {
        for direct in [0, OPEN] {
            let mut fields = [direct; 9];
            fields[..8].copy_from_slice(&sets.map(four).concat());
            wirings.push(fields);
        }
    }
    wirings
}

/// Every single row set, of F, of G or of H.
fn single_rows() -> impl Iterator<Item = (u16, u16, u8)> {
    let rows = (0..40).map(|row| 1u64 << row);
    rows.map(|set| ((set >> 24) as u16, (set >> 8) as u16, set as u8))
}

/// Whether some row of a function reads the single row that is set: there the value is 1, with
/// other tables that let the row through.
fn is_read(fields: &[u8; 9], tables: (u16, u16, u8)) -> bool {
    let through = match tables {
        (0, 0, h) => vec![(0, 0, h), (0, !0, h), (!0, 0, h), (!0, !0, h)],
        (0, g, _) => vec![(0, g, 0x33)],
        (f, _, _) => vec![(f, 0, 0x0F)],
    };
    let mut blocks = through.iter().map(|all| bytes(joined(fields, *all)));
    blocks.any(|block| computed(9, &block) != [0; 64])
}

/// What checking answers for pins in order and a single row: 8 if nothing reads it, since with such
/// pins only an open one can leave a row unread.
fn check_of_single(fields: &[u8; 9], tables: (u16, u16, u8)) -> Answer {
    match is_read(fields, tables) {
        true => Answer::success(0),
        false => Answer::refusal(8),
    }
}

/// Every single row set, for every wiring.
fn every_row(judge: &mut Judge) {
    for fields in wirings() {
        for tables in single_rows() {
            let answer = check_of_single(&fields, tables);
            let block = bytes(joined(&fields, tables));
            known(judge, 9, &block, Question::Check, answer);
            packed_and_asked(judge, fields, tables);
        }
    }
}

/// A block with each of its bits turned in turn.
fn bits_turned(judge: &mut Judge, n: u8, block: &[u8; 10], random: &mut Random) {
    for bit in 0..80 {
        let mut turned = *block;
        turned[bit / 8] ^= 0x80 >> (bit % 8);
        let rows = some_rows(n, random);
        judge.block(n, &turned, &rows);
        judge.pack(&Parts::of(n, &turned), 10);
    }
}

/// A block made for some n, at each of its rows.
fn evaluated(judge: &mut Judge, random: &mut Random) {
    let n = random.below(10) as u8;
    let block = either(&below(n), random);
    let rows: Vec<u32> = (0..1 << n).collect();
    judge.block(n, &block, &rows);
}

/// The block that computes with open pins low what a tidy block computes with them high: the open
/// pins of a table are its last, and each row that is set moves to where they are 0.
fn lowered(n: u8, block: &[u8; 10]) -> [u8; 10] {
    let Parts { fields, tables, .. } = Parts::of(n, block);
    let (f, g, h) = tables;
    let open = |pins: &[u8]| pins.iter().filter(|pin| **pin == OPEN).count();
    let moved = |rows: u16, pins: &[u8]| rows << ((1 << open(pins)) - 1);
    let h = h << open(&fields[8..]);
    bytes(joined(
        &fields,
        (moved(f, &fields[..4]), moved(g, &fields[4..8]), h),
    ))
}

/// A block made for some n with open pins low: it is refused with 8, or it is one that computes the
/// same with them high.
fn made_low(judge: &mut Judge, random: &mut Random) {
    let n = random.below(10) as u8;
    let high = either(&below(n), random);
    let block = lowered(n, &high);
    let table = computed(n as usize, &high);
    let answer = |part| match block == high {
        true => Answer::success(part),
        false => Answer::refusal(8),
    };
    known(judge, n, &block, Question::Check, answer(0));
    for row in 0..1 << n {
        let bit = table[row / 8] >> (7 - row % 8) & 1;
        let value = answer(bit as u64);
        known(judge, n, &block, Question::Evaluate(row as u32), value);
    }
    judge.parts(&Parts::of(n, &block));
}

/// Rows within a table of n inputs and beyond it.
fn some_rows(n: u8, random: &mut Random) -> [u32; 3] {
    let count = 1 << n.min(9);
    let within = random.below(count as usize) as u32;
    let beyond = [count, count + within, random.bits() as u32];
    [within, random.one(&FAR), random.one(&beyond)]
}

/// A block made for some n and damaged in up to three ways, with now and then another n or length.
pub fn damaged_block(judge: &mut Judge, random: &mut Random) {
    let mut n = random.below(10) as u8;
    let mut block = either(&below(n), random).to_vec();
    for _ in 0..random.one(&[0, 1, 1, 2, 3]) {
        random.one(&BLEMISHES)(&mut block, random);
    }
    if random.below(6) == 0 {
        let any = random.bits() as u8;
        n = random.one(&[n + 1, n.saturating_sub(1), 9, 10, 16 + n, any]);
    }
    if random.below(8) == 0 {
        block.resize(random.below(13), random.bits() as u8);
    }
    let rows = some_rows(n, random);
    judge.block(n, &block, &rows);
}

/// The parts of a block made for some n, damaged in up to three ways, or parts by chance; in any
/// room.
pub fn damaged_parts(judge: &mut Judge, random: &mut Random) {
    let n = random.below(10) as u8;
    let mut parts = match random.below(4) {
        0 => Parts::chance(random),
        _ => Parts::of(n, &either(&below(n), random)),
    };
    for _ in 0..random.one(&[0, 1, 1, 2, 3]) {
        random.one(&DAMAGES)(&mut parts, random);
    }
    let room = random.below(13);
    judge.pack(&parts, random.one(&[9, 10, room]));
    judge.tally.thing();
}

/// Asks about every group: the examples, the blocks of some vectors, and blocks and parts that
/// follow from a seed.
pub fn all(judge: &mut Judge, vectors: &[Line], seed: u64) {
    examples(judge);
    judge.tally.group_done("document 01");
    for line in vectors {
        vector(judge, line);
    }
    judge.tally.group_done("vectors");
    every_four_fields(judge);
    judge.tally.group_done("every four fields");
    every_row(judge);
    judge.tally.group_done("every row set");
    let mut random = Random(seed);
    let blocks = vectors
        .iter()
        .filter_map(|line| Some((line.n, line.block?)));
    let blocks: Vec<(u8, [u8; 10])> = blocks.collect();
    for _ in 0..TURNED {
        let (n, block) = random.one(&blocks);
        bits_turned(judge, n, &block, &mut random);
    }
    judge.tally.group_done("each bit turned");
    for _ in 0..EVALUATED {
        evaluated(judge, &mut random);
    }
    judge.tally.group_done("at every row");
    for _ in 0..EVALUATED {
        made_low(judge, &mut random);
    }
    judge.tally.group_done("made with open pins low");
    for _ in 0..DAMAGED {
        damaged_block(judge, &mut random);
    }
    judge.tally.group_done("blocks, damaged");
    for _ in 0..DAMAGED {
        damaged_parts(judge, &mut random);
    }
    judge.tally.group_done("parts, damaged");
}

#[cfg(test)]
mod tests {
    use super::{check_of_single, single_rows, wirings};
    use crate::blocks::second::check;
    use crate::ten::{bytes, joined};

    #[test]
    fn the_second_check_refuses_the_rows_that_nothing_reads() {
        assert_eq!(wirings().len(), 562);
        for fields in wirings() {
            for tables in single_rows() {
                let given = check(9, &bytes(joined(&fields, tables)));
                let answer = check_of_single(&fields, tables);
                assert_eq!(given, answer, "{fields:?}, {tables:04X?}");
            }
        }
    }
}
