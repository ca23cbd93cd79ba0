//! Compares the product's calls for sheets with a second reader and writer, on sheets made anew
//! from a seed, right and damaged. An answer is one call: its 64 bits in whole, every byte lent and
//! the bytes around them.
//!
//! usage: sheets [SEED]
//!
//! Without SEED the clock gives one. It stops with status 1 at the first difference; otherwise its
//! last line is `sheets: N answers, 0 differ`, with status 1 if a number that some call can give
//! never came.

use edges::sheets::{groups, judge::Judge};
use edges::words::Words;

/// Compares group by group.
fn main() {
    let seed = Words::given("sheets [SEED]").seed();
    let mut judge = Judge::new(format!("sh tests/run sheets {seed}"));
    groups::all(&mut judge, seed);
    judge.tally.end();
}
