//! Compares the product's checking, evaluating, typing and packing with second versions of them, on
//! the blocks of the vectors and on blocks and parts made anew from a seed, right and damaged. An
//! answer is one call: its 64 bits in whole, every byte lent and the bytes around them.
//!
//! usage: blocks VECTORS [SEED]
//!
//! VECTORS is the folder of the vector files. Without SEED the clock gives one. It stops with
//! status 1 at the first difference; otherwise its last line is `blocks: N answers, 0 differ`, with
//! status 1 if a number that some call can give, or a type that there is, never came.

use edges::blocks::{groups, judge::Judge};
use edges::vectors;
use edges::words::Words;

/// Compares group by group.
fn main() {
    let mut words = Words::given("blocks VECTORS [SEED]");
    let folder: String = words.next();
    let seed = words.seed();
    let mut judge = Judge::new(format!("sh tests/run blocks {seed}"));
    groups::all(&mut judge, &vectors::all(&folder), seed);
    judge.tally.end();
}
