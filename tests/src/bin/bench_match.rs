//! Times the product, the second matcher and, where it is built in (feature `trial`), the trial on
//! the functions of vector files, and measures the stack of a call.
//!
//! usage: bench_match FILE...
//!
//! Each function is asked of all of them in turn, the product and the trial five times and the
//! second matcher once. Every answer is held to that of the file; a difference ends the run with
//! status 1.

use edges::bench::matchers::{self, Timed};
use edges::bench::{stack, table};
use edges::matching::second::Second;
use edges::vectors;

/// Times every file given, prints its rows, then the stack.
fn main() {
    let second = Second::new();
    let matchers = matchers::all(&second);
    table::head(&matchers);
    let mut functions = vec![];
    for path in std::env::args().skip(1) {
        let lines = vectors::lines(&path);
        let timed = |line| matchers::timed(&matchers, line);
        let all: Vec<Timed> = lines.iter().map(timed).collect();
        table::rows(&matchers, &path, &all);
        functions.extend(lines);
    }
    stack::report(&matchers::entries(), &functions);
}
