//! Compares the product's reading of covers with a second reader, on the vectors of covers and on
//! texts made anew from a seed, right and damaged. An answer is one call: its 64 bits in whole,
//! every byte lent and the bytes around them.
//!
//! usage: covers VECTORS [SEED]
//!
//! VECTORS is the folder of all vectors. Without SEED the clock gives one. It stops with status 1
//! at the first difference; otherwise its last line is `covers: N answers, 0 differ`, with status 1
//! if a number that the call can give, or a number of inputs that there is, never came.

use edges::covers::{groups, judge::Judge, vectors::Stock};
use edges::words::Words;

/// Compares group by group.
fn main() {
    let mut words = Words::given("covers VECTORS [SEED]");
    let folder: String = words.next();
    let seed = words.seed();
    let mut judge = Judge::new(format!("sh tests/run covers {seed}"));
    groups::all(&mut judge, &Stock::below(&folder), seed);
    judge.tally.end();
}
