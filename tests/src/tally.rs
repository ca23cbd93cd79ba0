//! The account of a comparison: what was compared, which numbers came, and how it ends.

use std::time::Instant;

/// A kind of answer, and the numbers that must have come, such as 0 for success.
pub type Kind = (&'static str, &'static [usize]);

/// The greatest number that can come: that of the last refusal.
const GREATEST: usize = 17;

/// How far a comparison is.
#[derive(Clone, Copy)]
struct Mark {
    things: usize,
    answers: usize,
    time: Instant,
}

/// The account of a comparison under way.
pub struct Tally {
    /// What it is called, and what it asks about.
    name: &'static str,
    things: &'static str,
    kinds: &'static [Kind],
    /// How often each number came for each kind.
    given: Vec<[usize; GREATEST + 1]>,
    now: Mark,
    /// Where the group under way began, and the whole.
    group: Mark,
    start: Mark,
    /// The command that repeats the run.
    pub repeat: String,
}

impl Tally {
    /// The account of a comparison that begins.
    pub fn new(
        name: &'static str,
        things: &'static str,
        kinds: &'static [Kind],
        repeat: String,
    ) -> Tally {
        let start = Mark {
            things: 0,
            answers: 0,
            time: Instant::now(),
        };
        Tally {
            name,
            things,
            kinds,
            given: vec![[0; GREATEST + 1]; kinds.len()],
            now: start,
            group: start,
            start,
            repeat,
        }
    }

    /// How many answers were compared.
    pub fn answers(&self) -> usize {
        self.now.answers
    }

    /// Notes a number that came.
    pub fn came(&mut self, kind: usize, number: usize) {
        self.given[kind][number] += 1;
    }

    /// Notes an answer that was right.
    pub fn answer(&mut self, kind: usize, number: u8) {
        self.now.answers += 1;
        self.came(kind, number as usize);
    }

    /// Notes that everything was asked about a thing.
    pub fn thing(&mut self) {
        self.now.things += 1;
    }

    /// Tells of a difference and ends the run.
    pub fn differ(&self, lines: &[String]) -> ! {
        println!("differ: {}", lines.join("\n  "));
        println!("  repeat: {}", self.repeat);
        std::process::exit(1);
    }

    /// Prints what was compared since a mark.
    fn print(&self, group: &str, since: Mark) {
        let things = self.now.things - since.things;
        let answers = self.now.answers - since.answers;
        let (time, what) = (since.time.elapsed(), self.things);
        println!("{group}: {things} {what}, {answers} answers, {time:.1?}");
    }

    /// Prints what was compared in a group, which ends.
    pub fn group_done(&mut self, group: &str) {
        self.print(group, self.group);
        self.group = Mark {
            time: Instant::now(),
            ..self.now
        };
    }

    /// Prints how often each number came; whether every one that must have come did.
    fn complete(&self) -> bool {
        let mut complete = true;
        for ((name, wanted), given) in self.kinds.iter().zip(&self.given) {
            let count = |number: &usize| format!("{number}: {}", given[*number]);
            let counts: Vec<String> = wanted.iter().map(count).collect();
            println!("{name}, by number: {}", counts.join(", "));
            complete &= wanted.iter().all(|number| given[*number] > 0);
        }
        complete
    }

    /// Prints the account and ends the run, with status 1 if a number that must have come did not.
    pub fn end(&self) -> ! {
        self.print("all", self.start);
        let missing = match self.complete() {
            true => "",
            false => ", some number never came",
        };
        println!(
            "{}: {} answers, 0 differ{missing}",
            self.name,
            self.answers()
        );
        std::process::exit(!missing.is_empty() as i32);
    }
}
