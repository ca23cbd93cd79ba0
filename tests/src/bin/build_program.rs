//! Runs the program for builds on builds of the vectors and of the examples of document 01, in any
//! order and damaged, on the longest builds and on what cannot be read or written, and holds every
//! byte that it writes, on standard output and on standard error, and its exit status to what must
//! be. The line of a request is the one that the program for tables prints for it.
//!
//! usage: build_program BUILD DRAWMITTEN VECTORS [SEED]
//!
//! BUILD and DRAWMITTEN are the two programs, and VECTORS is the folder of the vectors. Without
//! SEED the clock gives one. It stops with status 1 at the first difference; otherwise its last
//! line is `build_program: N runs, 0 differ`.

use edges::program::{build, judge};
use edges::vectors;
use edges::words::Words;

/// Runs every case.
fn main() {
    let mut words = Words::given("build_program BUILD DRAWMITTEN VECTORS [SEED]");
    let (program, drawmitten): (String, String) = (words.next(), words.next());
    let folder: String = words.next();
    let seed = words.seed();
    let cases = build::all(&drawmitten, &vectors::all(&folder), seed);
    judge::all("build_program", &program, &cases);
}
