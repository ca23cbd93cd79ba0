//! Runs the program on the examples of document 01, on the vectors and on damaged input, and holds
//! every byte that it writes, on standard output and on standard error, and its exit status to what
//! must be.
//!
//! usage: program PROGRAM VECTORS
//!
//! VECTORS is the folder of the vector files. It stops with status 1 at the first difference;
//! otherwise its last line is `program: N runs, 0 differ`.

use edges::program::{cases, judge};
use edges::vectors;
use edges::words::Words;

/// Runs every case.
fn main() {
    let mut words = Words::given("program PROGRAM VECTORS");
    let (program, folder): (String, String) = (words.next(), words.next());
    judge::all("program", &program, &cases::all(&vectors::all(&folder)));
}
