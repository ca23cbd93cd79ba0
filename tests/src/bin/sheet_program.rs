//! Runs the program for sheets on files in folders of their own: sheets right and damaged, records
//! by their ten bytes and by covers, words and numbers of every kind, files and names that are not as
//! they should be, and system calls that fail. It holds every byte on both outputs, the exit status,
//! and after every run every name and every byte in the folder to what a second version of the
//! program says; of what the system says of a failure, only that it is there where a call fails that
//! is not made to fail.
//!
//! usage: sheet_program SHEET FOLDER [SEED]
//!
//! SHEET is the program, which must load the C library when it starts, and FOLDER one in which files
//! can be made. Without SEED the clock gives one. It needs gcc, and where everything is permitted to
//! whoever runs it setpriv, to try what is not. It stops with status 1 at the first
//! difference; otherwise its last line is `sheet_program: N runs, 0 differ`.

use edges::program::sheet::{self, judge};
use edges::words::Words;

/// Runs every case.
fn main() {
    let mut words = Words::given("sheet_program SHEET FOLDER [SEED]");
    let (program, folder): (String, String) = (words.next(), words.next());
    let seed = words.seed();
    let [program, folder] = [program, folder].map(|path| {
        let whole = std::fs::canonicalize(&path).unwrap_or_else(|wrong| panic!("{path}: {wrong}"));
        whole.to_str().expect("a plain path").to_string()
    });
    let cases = sheet::all(&program, &folder, seed);
    judge::all(&program, &cases, &format!("sh tests/run program {seed}"));
}
