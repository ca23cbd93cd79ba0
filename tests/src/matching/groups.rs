//! The groups of functions: how those of each are made, and what is asked about them.

use crate::document;
use crate::matching::judge::{Function, Judge, Known};
use crate::matching::made::{Made, Maker, KINDS};
use crate::random::Random;
use crate::table::{refusal, table_length};
use crate::vectors::{self, Line};

/// How many functions of each kind are made for each n.
const OF_EACH: usize = 50;

/// The examples of document 01 that ask for a match, P1 to P8 with much room too.
fn examples(judge: &mut Judge) {
    let mut functions = vec![];
    for example in document::matches() {
        let (n, table, outcome) = (example.n, example.table, Ok(example.block));
        for room in [255, 256, 257, 65536] {
            judge.answer(n, &table, room, outcome);
        }
        let known = Known::Outcome(outcome);
        functions.push(Function { n, table, known });
    }
    for (n, table, number) in document::refused_tables() {
        judge.answer(n, &table, 10, Err(number));
        if refusal(n, &table).is_none() {
            let known = Known::Outcome(Err(number));
            functions.push(Function { n, table, known });
        }
    }
    judge.functions(&functions);
}

/// Tables and rooms with faults in every mixture: the first of 1, 2, 3 and 5 that applies is given.
fn refusals(judge: &mut Judge) {
    for n in 0..=255 {
        let right = table_length(n.min(9) as usize);
        for length in [0, 64, 65, right - 1, right, right + 1, right + 256] {
            for byte in [0, 1, 2, 4, 8, 16, 32, 64, 128, 255] {
                let table = vec![byte; length];
                for room in 0..=13 {
                    let first = refusal(n, &table).or((room < 10).then_some(5));
                    if let Some(number) = first {
                        judge.answer(n, &table, room, Err(number));
                    }
                }
            }
        }
    }
}

/// Bytes that are most likely no table of n inputs, or too little room for a match.
pub fn damaged_table(judge: &mut Judge, random: &mut Random) {
    let any = random.bits() as u8;
    let n = random.one(&[0, 1, 2, 3, 9, 10, 16, any % 10, any]);
    let right = table_length(n.min(9) as usize);
    let length = random.one(&[right, right, right - 1, right + 1, 0, 64, 256 + right]);
    let table: Vec<u8> = (0..length).map(|_| random.bits() as u8).collect();
    let room = random.below(14);
    if let Some(number) = refusal(n, &table).or((room < 10).then_some(5)) {
        judge.answer(n, &table, room, Err(number));
    }
}

/// Every line of a vector file.
fn vector_file(path: &str) -> Vec<Function> {
    let function = |line: Line| Function {
        n: line.n,
        table: line.table,
        known: Known::Outcome(line.block.ok_or(4)),
    };
    vectors::lines(path).into_iter().map(function).collect()
}

/// One in sixteen of the tables of four inputs.
fn four_inputs(first: u64) -> Vec<Function> {
    let function = |number: u64| Function {
        n: 4,
        table: (number as u16).to_be_bytes().to_vec(),
        known: Known::Nothing,
    };
    (first..65536).step_by(16).map(function).collect()
}

/// A function made.
pub fn made(n: u8, make: Maker, random: &mut Random) -> Function {
    let Made { table, block } = make(n, random);
    let known = block.map_or(Known::Nothing, Known::NotAfter);
    Function { n, table, known }
}

/// Asks about every group: the examples, the vectors of a folder, and functions that follow from a
/// seed.
pub fn all(judge: &mut Judge, folder: &str, seed: u64) {
    examples(judge);
    judge.tally.group_done("document 01");
    refusals(judge);
    judge.tally.group_done("refusals before the search");
    for file in vectors::files(folder, ".txt") {
        judge.functions(&vector_file(&format!("{folder}/{file}")));
        judge.tally.group_done(&file);
    }
    judge.functions(&four_inputs(seed % 16));
    judge.tally.group_done("one in sixteen of 4 inputs");
    let mut random = Random(seed);
    for (name, make) in KINDS {
        let numbers = (0..=9).flat_map(|n| [n; OF_EACH]);
        let functions: Vec<Function> = numbers.map(|n| made(n, make, &mut random)).collect();
        judge.functions(&functions);
        judge.tally.group_done(name);
    }
}
