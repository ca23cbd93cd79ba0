//! The groups of texts: how those of each are made, and what is asked about them.

use crate::covers::cases::{self, Case};
use crate::covers::damage::{DAMAGES, SPECIAL};
use crate::covers::judge::Judge;
use crate::covers::second::Outcome;
use crate::covers::vectors::{Stock, Vector};
use crate::covers::{long, made, places};
use crate::random::Random;
use crate::table::{table_length, table_of};

/// Makes the texts of a group and asks about them.
type Group = fn(&mut Judge, &Stock, &mut Random);

/// The groups and their names.
const GROUPS: [(&str, Group); 12] = [
    ("vectors", vectors),
    ("vectors, continued", continued),
    ("known by hand", known),
    ("each byte at each place", each_byte),
    ("wide and long", wide_and_long),
    ("every short head", short_heads),
    ("every short line", short_lines),
    ("tables there and back", tables),
    ("the same in other words", in_other_words),
    ("cut at each length", cut),
    ("special bytes at each place", special_bytes),
    ("damaged", damaged),
];

/// Rooms beside every table's length, and beyond the longest.
const ROOMS: [usize; 16] = [0, 1, 2, 3, 4, 5, 7, 8, 9, 15, 16, 32, 63, 64, 65, 300];

/// How many other texts are made of each vector.
const OTHERS: usize = 60;

/// How many tables of each n above 4 are written and read back.
const OF_EACH: usize = 60;

/// The most bytes of a vector that is cut, and changed, at each of its bytes.
const SMALL: usize = 120;

/// How many texts are damaged.
const DAMAGED: usize = 300_000;

/// What a vector's text means.
fn meaning(vector: &Vector) -> Outcome {
    Ok((vector.n, vector.table.clone()))
}

/// Every vector that is a cover gives its table, which is one that can be matched.
fn vectors(judge: &mut Judge, stock: &Stock, _: &mut Random) {
    for vector in &stock.covers {
        judge.known(&vector.text, &ROOMS, &meaning(vector));
        judge.matched(&vector.text, vector.n, &vector.table);
    }
}

/// A vector with a continued line is none; with a blank for each mark of continuation it gives its
/// table.
fn continued(judge: &mut Judge, stock: &Stock, _: &mut Random) {
    for vector in &stock.continued {
        judge.known(&vector.text, &ROOMS, &Err(15));
        let text = String::from_utf8_lossy(&vector.text).replace("\\\n", " ");
        judge.known(text.as_bytes(), &ROOMS, &meaning(vector));
    }
}

/// Texts of which the outcome is known.
fn all_known(judge: &mut Judge, cases: &[Case], rooms: &[usize]) {
    for (text, outcome) in cases {
        judge.known(text, rooms, outcome);
    }
}

/// Texts of which the outcome follows by hand.
fn known(judge: &mut Judge, _: &Stock, _: &mut Random) {
    all_known(judge, &cases::all(), &ROOMS);
}

/// Every byte at each place where it matters.
fn each_byte(judge: &mut Judge, _: &Stock, _: &mut Random) {
    all_known(judge, &places::all(), &[0, 1, 64]);
}

/// Covers with many inputs, long names and long texts.
fn wide_and_long(judge: &mut Judge, _: &Stock, random: &mut Random) {
    all_known(judge, &long::wide(), &[0, 64]);
    all_known(judge, &long::long_lines(), &[0, 64]);
    all_known(judge, &long::names(), &[0, 63, 64]);
    all_known(judge, &long::texts(random), &[0, 1, 63, 64, 65]);
}

/// Asks about a start followed by every text of up to so many of these bytes.
fn endings(judge: &mut Judge, start: &[u8], among: &[u8], most: usize) {
    judge.text(start, 64);
    if most > 0 {
        for byte in among {
            endings(judge, &[start, &[*byte]].concat(), among, most - 1);
        }
    }
}

/// Every short text after the word at the start.
fn short_heads(judge: &mut Judge, _: &Stock, _: &mut Random) {
    endings(judge, b".names", b"a1 \t\n\r#\\", 6);
}

/// Every short text after heads of no input, one and two.
fn short_lines(judge: &mut Judge, _: &Stock, _: &mut Random) {
    for head in [".names y\n", ".names a y\n", ".names a b y\n"] {
        endings(judge, head.as_bytes(), b"01- \n\r#", 6);
    }
}

/// Writes a table as a cover, a line for each row with a value, and reads it back.
fn there_and_back(judge: &mut Judge, n: usize, table: &[u8], random: &mut Random) {
    let names = made::names(n + 1, random);
    for value in [true, false] {
        let lines = made::rows(n, table, value);
        let table = match lines.is_empty() {
            true => vec![0; table_length(n)],
            false => table.to_vec(),
        };
        let (text, n) = (made::text(&names, &lines), n as u8);
        let rooms = [table.len() - 1, table.len(), table.len() + 1];
        judge.known(&text, &rooms, &Ok((n, table.clone())));
        judge.matched(&text, n, &table);
    }
}

/// Every table of up to 3 inputs, one in 64 of those of 4, and some of each n above.
fn tables(judge: &mut Judge, _: &Stock, random: &mut Random) {
    for n in 0..=3 {
        for bits in 0..1u64 << (1 << n) {
            there_and_back(judge, n, &table_of(n, |row| bits >> row & 1 == 1), random);
        }
    }
    for bits in (random.below(64) as u16..=u16::MAX).step_by(64) {
        there_and_back(judge, 4, &bits.to_be_bytes(), random);
    }
    for n in (5..=9).flat_map(|n| [n; OF_EACH]) {
        let bytes = (0..table_length(n)).map(|_| random.bits() as u8);
        let table: Vec<u8> = bytes.collect();
        there_and_back(judge, n, &table, random);
    }
}

/// Other texts of the covers of the vectors, and of covers made.
fn in_other_words(judge: &mut Judge, stock: &Stock, random: &mut Random) {
    for vector in &stock.covers {
        for _ in 0..OTHERS {
            let text = made::in_other_words(&vector.text, random);
            judge.known(&text, &[64], &meaning(vector));
        }
        let cover = made::cover(random);
        let outcome = judge.outcome(&cover, &ROOMS);
        for _ in 0..OTHERS {
            let text = made::in_other_words(&cover, random);
            judge.known(&text, &[64], &outcome);
        }
    }
}

/// The texts of the small vectors.
fn small(stock: &Stock) -> impl Iterator<Item = &[u8]> {
    let texts = stock.covers.iter().map(|vector| &vector.text[..]);
    texts.filter(|text| text.len() <= SMALL)
}

/// Small vectors cut at each length, as they stand and with CR LF.
fn cut(judge: &mut Judge, stock: &Stock, _: &mut Random) {
    for text in small(stock) {
        let with_cr = String::from_utf8_lossy(text).replace('\n', "\r\n");
        for text in [text, with_cr.as_bytes()] {
            for length in 0..=text.len() {
                judge.text(&text[..length], 64);
            }
        }
    }
}

/// Small vectors with each byte that means something at each place, before what stands there and
/// instead of it.
fn special_bytes(judge: &mut Judge, stock: &Stock, _: &mut Random) {
    for text in small(stock).step_by(4) {
        for place in 0..text.len() {
            let (before, after) = text.split_at(place);
            for byte in SPECIAL {
                judge.text(&[before, &[*byte], after].concat(), 64);
                judge.text(&[before, &[*byte], &after[1..]].concat(), 64);
            }
        }
    }
}

/// The text of some vector.
fn some<'a>(vectors: &'a [Vector], random: &mut Random) -> &'a [u8] {
    &vectors[random.below(vectors.len())].text
}

/// A text of the vectors, one in other words, or a cover made.
fn begun(stock: &Stock, random: &mut Random) -> Vec<u8> {
    let cover = some(&stock.covers, random);
    match random.below(8) {
        0 => some(&stock.continued, random).to_vec(),
        1 => made::cover(random),
        2 => made::in_other_words(cover, random),
        _ => cover.to_vec(),
    }
}

/// A text damaged in up to three ways.
pub fn damaged_text(stock: &Stock, random: &mut Random) -> Vec<u8> {
    let mut text = begun(stock, random);
    for _ in 0..random.one(&[0, 1, 1, 1, 2, 3]) {
        let other = some(&stock.covers, random);
        random.one(&DAMAGES)(&mut text, other, random);
    }
    text
}

/// A text damaged in up to three ways, with any room and with enough.
pub fn one_damaged(judge: &mut Judge, stock: &Stock, random: &mut Random) {
    let text = damaged_text(stock, random);
    let rooms = [random.one(&ROOMS), 64 + random.below(3)];
    let _ = judge.outcome(&text, &rooms);
}

/// Texts damaged in up to three ways.
fn damaged(judge: &mut Judge, stock: &Stock, random: &mut Random) {
    for _ in 0..DAMAGED {
        one_damaged(judge, stock, random);
    }
}

/// Asks about every group, on texts that follow from the vectors and a seed.
pub fn all(judge: &mut Judge, stock: &Stock, seed: u64) {
    let mut random = Random(seed);
    for (name, work) in GROUPS {
        work(judge, stock, &mut random);
        judge.tally.group_done(name);
    }
}
