//! Kills the program for sheets while it adds records, by their ten bytes and by covers in turn, to
//! sheets of any length: before it writes, while it does, and after. Each time the file must hold
//! the sheet from before or the longer one, byte for byte, the add must be told of what was left, and
//! must work once that is removed. Now and then several adds are started at once on one file.
//!
//! usage: killed SHEET FOLDER TIMES [SEED]
//!
//! SHEET is the program, FOLDER an empty folder, TIMES how many adds are killed. Without SEED the
//! clock gives one; the times of the kills follow from it only as far as the machine does the same
//! again. It stops with status 1 at the first thing that is broken; otherwise its last line is
//! `killed: N kills, A old, B new, C left FILE.new, 0 broken`.

use edges::program::sheet::crowd::{self, Crowds};
use edges::program::sheet::killed::{Counts, Killer};
use edges::program::sheet::second::Version;
use edges::random::Random;
use edges::words::Words;

/// After how many kills several adds are started at once.
const BETWEEN: usize = 5;

/// Kills as often as is asked.
fn main() {
    let mut words = Words::given("killed SHEET FOLDER TIMES [SEED]");
    let (program, folder): (String, String) = (words.next(), words.next());
    let kills = words.next();
    let seed = words.seed();
    let killer = Killer {
        program: &program,
        folder: &folder,
        version: Version::new(),
        repeat: format!("sh tests/killed {kills} {seed}"),
    };
    let mut random = Random(seed);
    let times = killer.times(&mut random);
    let (mut counts, mut crowds) = (Counts::default(), Crowds::default());
    while counts.kills < kills {
        if counts.kills % BETWEEN == 0 {
            crowd::one(&killer, &mut crowds, &mut random);
        }
        killer.one(&mut counts, times, &mut random);
    }
    let Crowds {
        adds,
        added,
        hindered,
        refused,
    } = crowds;
    println!("{adds} adds at once: {added} added, {hindered} hindered, {refused} refused");
    let Counts { old, new, left, .. } = counts;
    println!("killed: {kills} kills, {old} old, {new} new, {left} left FILE.new, 0 broken");
}
