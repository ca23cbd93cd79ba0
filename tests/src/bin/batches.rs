//! Compares the product's matching of whole builds with single calls, on builds of the vectors and
//! of the examples of document 01 and on builds made anew from a seed, right and damaged; which
//! bytes are a request is found by a second reading. An answer is one call: its 64 bits in whole,
//! every byte lent and the bytes around them.
//!
//! usage: batches VECTORS [SEED]
//!
//! VECTORS is the folder of all vectors. Without SEED the clock gives one. It stops with status 1
//! at the first difference; otherwise its last line is `batches: N answers, 0 differ`, with status
//! 1 if a number that the call or a slot can give, or a number of inputs that there is, never came.

use edges::batches::{groups, judge::Judge, made::Stock};
use edges::vectors;
use edges::words::Words;

/// Compares group by group.
fn main() {
    let mut words = Words::given("batches VECTORS [SEED]");
    let folder: String = words.next();
    let seed = words.seed();
    let mut judge = Judge::new(format!("sh tests/run batches {seed}"));
    groups::all(&mut judge, &Stock::of(&vectors::all(&folder)), seed);
    judge.tally.end();
}
