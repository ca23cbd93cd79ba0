//! Runs the program for covers on the vectors, on texts with each refusal, on the longest texts and
//! on what cannot be read or written, from standard input and by name, and holds every byte that it
//! writes, on standard output and on standard error, and its exit status to what must be. The line
//! of a cover is the one that the program for tables prints for its table.
//!
//! usage: cover_program COVER DRAWMITTEN VECTORS FOLDER
//!
//! COVER and DRAWMITTEN are the two programs, VECTORS is the folder of the vectors, and FOLDER one
//! in which files can be made. It stops with status 1 at the first difference; otherwise its last
//! line is `cover_program: N runs, 0 differ`.

use edges::program::{cover, judge};
use edges::words::Words;

/// Runs every case.
fn main() {
    let mut words = Words::given("cover_program COVER DRAWMITTEN VECTORS FOLDER");
    let mut next = || -> String { words.next() };
    let [program, drawmitten, vectors, folder] = std::array::from_fn(|_| next());
    let cases = cover::all(&drawmitten, &vectors, &folder);
    judge::all("cover_program", &program, &cases);
}
