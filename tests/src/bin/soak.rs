//! Compares all eleven calls with the second versions for some time, on inputs that follow from a
//! seed: functions of 0 to 9 inputs, builds, covers, blocks and parts, and sheets, right and
//! damaged; and covers that ABC writes, where it is installed.
//!
//! usage: soak VECTORS FOLDER SECONDS [SEED]
//!
//! VECTORS is the folder of all vectors, FOLDER one for ABC's files. Without SEED the clock gives
//! one. Each round has a seed of its own, one above that of the round before. It stops with status
//! 1 at the first difference, and tells the round's seed; otherwise its last line is `soak: N
//! answers, 0 differ`.

use edges::covers::abc::Abc;
use edges::covers::vectors::Stock;
use edges::random::Random;
use edges::sheets::second::MOST;
use edges::tally::Tally;
use edges::vectors;
use edges::words::Words;
use edges::{batches, blocks, covers, matching, sheets};
use std::time::{Duration, Instant};

/// How many blocks, parts, damaged tables, builds, covers and small sheets are asked about in a
/// round.
const OF_EACH: usize = 2000;

/// How many pairs of builds are put together in a round.
const PAIRS: usize = 100;

/// How many networks ABC rewrites in a round.
const NETWORKS: usize = 10;

/// The judges of the five comparisons.
struct Judges {
    matching: matching::judge::Judge,
    batches: batches::judge::Judge,
    blocks: blocks::judge::Judge,
    sheets: sheets::judge::Judge,
    covers: covers::judge::Judge,
}

/// What builds come from, and covers: the vectors, and ABC if it is installed, with how many it
/// wrote.
struct Sources {
    requests: batches::made::Stock,
    stock: Stock,
    abc: Option<Abc>,
    written: usize,
}

impl Judges {
    /// Judges that have judged nothing.
    fn new() -> Judges {
        Judges {
            matching: matching::judge::Judge::new(String::new()),
            batches: batches::judge::Judge::new(String::new()),
            blocks: blocks::judge::Judge::new(String::new()),
            sheets: sheets::judge::Judge::new(String::new()),
            covers: covers::judge::Judge::new(String::new()),
        }
    }

    /// The accounts of all.
    fn tallies(&mut self) -> [&mut Tally; 5] {
        [
            &mut self.matching.tally,
            &mut self.batches.tally,
            &mut self.blocks.tally,
            &mut self.sheets.tally,
            &mut self.covers.tally,
        ]
    }

    /// How many answers were compared.
    fn answers(&mut self) -> usize {
        self.tallies().map(|tally| tally.answers()).iter().sum()
    }

    /// Builds: damaged ones, and pairs of right ones.
    fn builds(&mut self, sources: &Sources, random: &mut Random) {
        for _ in 0..OF_EACH {
            batches::groups::one_damaged(&mut self.batches, &sources.requests, random);
        }
        for _ in 0..PAIRS {
            batches::groups::one_pair(&mut self.batches, random);
        }
    }

    /// Covers: damaged ones, and those that ABC writes.
    fn covers(&mut self, sources: &mut Sources, random: &mut Random) {
        for _ in 0..OF_EACH {
            covers::groups::one_damaged(&mut self.covers, &sources.stock, random);
        }
        for abc in sources.abc.iter().flat_map(|abc| [abc; NETWORKS]) {
            sources.written += covers::network::one_rewritten(&mut self.covers, abc, random);
        }
    }

    /// One round: blocks, parts, tables, sheets, builds and covers, and a function of each kind and
    /// n.
    fn round(&mut self, sources: &mut Sources, seed: u64) {
        for tally in self.tallies() {
            tally.repeat = format!("sh tests/soak 1 {seed}");
        }
        let mut random = Random(seed);
        for _ in 0..OF_EACH {
            blocks::groups::damaged_block(&mut self.blocks, &mut random);
            blocks::groups::damaged_parts(&mut self.blocks, &mut random);
            matching::groups::damaged_table(&mut self.matching, &mut random);
            sheets::groups::one_damaged(&mut self.sheets, 5, &mut random);
        }
        self.builds(sources, &mut random);
        self.covers(sources, &mut random);
        sheets::groups::one_right(&mut self.sheets, &mut random);
        sheets::groups::one_damaged(&mut self.sheets, MOST, &mut random);
        sheets::groups::of_matches(&mut self.sheets, &mut random);
        let numbers = (0..=9).flat_map(|n| matching::made::KINDS.map(|(_, make)| (n, make)));
        let made = numbers.map(|(n, make)| matching::groups::made(n, make, &mut random));
        self.matching.functions(&made.collect::<Vec<_>>());
    }
}

/// Compares round by round until the time is over.
fn main() {
    let mut words = Words::given("soak VECTORS FOLDER SECONDS [SEED]");
    let (vectors_folder, folder): (String, String) = (words.next(), words.next());
    let seconds = words.next();
    let seed = words.seed();
    let mut sources = Sources {
        requests: batches::made::Stock::of(&vectors::all(&vectors_folder)),
        stock: Stock::below(&vectors_folder),
        abc: Abc::found(&folder),
        written: 0,
    };
    let end = Instant::now() + Duration::from_secs(seconds);
    let (mut judges, mut round) = (Judges::new(), 0);
    while round == 0 || Instant::now() < end {
        judges.round(&mut sources, seed.wrapping_add(round));
        round += 1;
    }
    println!("{round} rounds, {} covers written by ABC", sources.written);
    println!("soak: {} answers, 0 differ", judges.answers());
}
