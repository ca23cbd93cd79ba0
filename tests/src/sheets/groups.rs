//! The groups of sheets: how the sheets of each are made, and what is asked about them.

use crate::hexadecimal::hexadecimal;
use crate::lent::said;
use crate::library::{match_table, Answer};
use crate::random::Random;
use crate::sheets::damage::DAMAGES;
use crate::sheets::document;
use crate::sheets::judge::Judge;
use crate::sheets::made::{self, GREATEST};
use crate::sheets::questions::{self, append, offer};
use crate::sheets::second::{Sheet, MOST, RECORD};
use crate::sheets::watched::{Offer, Question};

/// Makes the sheets of a group and asks about them.
type Group = fn(&mut Judge, &mut Random);

/// The groups and their names.
const GROUPS: [(&str, Group); 10] = [
    ("document 01", known),
    ("right sheets", right_sheets),
    ("too long", long_sheets),
    ("grown record by record", grown),
    ("of blocks matched", of_matches),
    ("each bit turned", bits_turned),
    ("cut at each length", cut),
    ("small, damaged", small_damaged),
    ("bytes by chance", chance),
    ("large, damaged", large_damaged),
];

/// How many right sheets of each small count of records are made.
const OF_EACH: usize = 30;

/// How many sheets are made to turn each bit of, and to cut at each length.
const TURNED: usize = 12;

/// How many small sheets are damaged in one to three ways.
const DAMAGED: usize = 100_000;

/// How many records are offered to a damaged sheet.
const OFFERS: usize = 6;

/// The answers that follow from document 01 by hand.
fn known(judge: &mut Judge, _: &mut Random) {
    for (question, sheet, answer) in document::facts() {
        judge.known(question, &sheet, answer);
    }
}

/// Right sheets: many small ones and the largest, each also with the greatest number pair added,
/// which makes the last one too long.
fn right_sheets(judge: &mut Judge, random: &mut Random) {
    let small = (0..=5).flat_map(|count| [count; OF_EACH]);
    for count in small.chain([100, MOST - 1, MOST]) {
        let mut pairs = made::pairs(count, random);
        let sheet = made::sheet_of(&pairs, random);
        judge.sheet(&sheet, &questions::all(&sheet, random));
        pairs.push(GREATEST);
        let sheet = made::sheet_of(&pairs, random);
        judge.sheet(&sheet, &questions::all(&sheet, random));
    }
}

/// A right sheet of any count of records, small most of the time, or one too long.
pub fn one_right(judge: &mut Judge, random: &mut Random) {
    let any = random.below(MOST + 3);
    let count = random.one(&[0, 1, 2, 3, 40, MOST - 1, MOST, any]);
    let sheet = made::sheet(count, random);
    judge.sheet(&sheet, &questions::all(&sheet, random));
}

/// Sheets that would be right were they not too long.
fn long_sheets(judge: &mut Judge, random: &mut Random) {
    for count in [MOST + 1, MOST + 2, 2 * MOST] {
        let sheet = made::sheet(count, random);
        judge.sheet(&sheet, &questions::all(&sheet, random));
    }
}

/// Adds a record to a sheet by the product, and goes on with the product's bytes.
fn add(judge: &mut Judge, sheet: &mut Vec<u8>, read: &mut Sheet, offer: Offer) {
    let length = sheet.len() + RECORD;
    let (record, room) = (offer.record(), RECORD * MOST + 30);
    let left = judge.ask(&append(sheet, room, offer), sheet, read);
    *sheet = left.lent[0].bytes()[..length].to_vec();
    if let Ok(records) = &mut read.records {
        records.push(record);
    }
}

/// A sheet that grows from nothing to the most records, by the product's own appending.
fn grown(judge: &mut Judge, random: &mut Random) {
    let (mut sheet, mut read) = (vec![], Sheet::read(&[]));
    for pair in made::pairs(MOST, random) {
        add(judge, &mut sheet, &mut read, offer(pair, random));
        if sheet.len() / RECORD % 300 == 0 {
            judge.sheet(&sheet, &[Question::Check]);
        }
    }
    judge.sheet(&sheet, &questions::all(&sheet, random));
}

/// The ten bytes of the product's match for a random table of n inputs, n at most 5.
fn matched(judge: &Judge, n: u8, random: &mut Random) -> Vec<u8> {
    let mut table = random.bits().to_be_bytes()[..1 << n.saturating_sub(3)].to_vec();
    table[0] &= [0x80, 0xC0, 0xF0, 0xFF, 0xFF, 0xFF][n as usize];
    let mut ten = vec![0; 10];
    let answer = match_table(n, &table, &mut ten);
    if answer != Answer::success(10) {
        let asked = format!("match n {n}, table {}", hexadecimal(&table));
        judge.tally.differ(&[asked, said(answer)]);
    }
    ten
}

/// A sheet of blocks that the product's matcher found.
pub fn of_matches(judge: &mut Judge, random: &mut Random) {
    let (mut sheet, mut read) = (vec![], Sheet::read(&[]));
    for pair in made::pairs(60, random) {
        let n = random.below(6) as u8;
        let ten = matched(judge, n, random);
        add(judge, &mut sheet, &mut read, Offer { pair, n, ten });
    }
    judge.sheet(&sheet, &questions::all(&sheet, random));
}

/// Asks about a damaged sheet.
fn damaged(judge: &mut Judge, sheet: &[u8], random: &mut Random) {
    judge.sheet(sheet, &questions::some(sheet, OFFERS, random));
}

/// Sheets of three or four records with each bit turned in turn.
fn bits_turned(judge: &mut Judge, random: &mut Random) {
    for k in 0..TURNED {
        let sheet = made::sheet(3 + k % 2, random);
        for bit in 0..8 * sheet.len() {
            let mut turned = sheet.clone();
            turned[bit / 8] ^= 0x80 >> (bit % 8);
            damaged(judge, &turned, random);
        }
    }
}

/// Sheets of three or four records cut at each length.
fn cut(judge: &mut Judge, random: &mut Random) {
    for k in 0..TURNED {
        let sheet = made::sheet(3 + k % 2, random);
        for length in 0..=sheet.len() {
            damaged(judge, &sheet[..length], random);
        }
    }
}

/// Damages a sheet at one of its records, if it has one.
fn spoil(sheet: &mut Vec<u8>, random: &mut Random) {
    let count = sheet.len() / RECORD;
    if count > 0 {
        let (damage, place) = (random.one(&DAMAGES), random.below(count));
        damage(sheet, place, random);
    }
}

/// A sheet of 1 to `most` records damaged in one to three ways.
pub fn one_damaged(judge: &mut Judge, most: usize, random: &mut Random) {
    let mut sheet = made::sheet(1 + random.below(most), random);
    for _ in 0..random.one(&[1, 1, 1, 2, 3]) {
        spoil(&mut sheet, random);
    }
    damaged(judge, &sheet, random);
}

/// Small sheets damaged in one to three ways.
fn small_damaged(judge: &mut Judge, random: &mut Random) {
    for _ in 0..DAMAGED {
        one_damaged(judge, 5, random);
    }
}

/// Bytes by chance.
fn chance(judge: &mut Judge, random: &mut Random) {
    for length in 0..=8 * RECORD {
        let sheet: Vec<u8> = (0..length).map(|_| random.bits() as u8).collect();
        damaged(judge, &sheet, random);
    }
}

/// A sheet of the most records with each damage at its first, its middle and its last record.
fn large_damaged(judge: &mut Judge, random: &mut Random) {
    let right = made::sheet(MOST, random);
    for damage in DAMAGES {
        for place in [0, MOST / 2, MOST - 1] {
            let mut sheet = right.clone();
            damage(&mut sheet, place, random);
            damaged(judge, &sheet, random);
        }
    }
}

/// Asks about every group, on sheets that follow from a seed.
pub fn all(judge: &mut Judge, seed: u64) {
    let mut random = Random(seed);
    for (name, work) in GROUPS {
        work(judge, &mut random);
        judge.tally.group_done(name);
    }
}
