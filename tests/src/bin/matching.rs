//! Compares the product's answers with those of the vectors, of document 01 and of the second
//! matcher, on known functions and on functions made anew from a seed. An answer is one call: its
//! 64 bits in whole, every byte lent and the bytes around them.
//!
//! usage: matching VECTORS [SEED]
//!
//! VECTORS is the folder of the vector files. Without SEED the clock gives one. It stops with
//! status 1 at the first difference; otherwise its last line is `matching: N answers, 0 differ`.

use edges::matching::{groups, judge::Judge};
use edges::words::Words;

/// Compares group by group.
fn main() {
    let mut words = Words::given("matching VECTORS [SEED]");
    let folder: String = words.next();
    let seed = words.seed();
    let mut judge = Judge::new(format!("sh tests/run matching {seed}"));
    groups::all(&mut judge, &folder, seed);
    judge.tally.end();
}
