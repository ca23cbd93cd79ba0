//! Holds the product's answers to those of the second matcher, and these to what is known.

use crate::block::computed;
use crate::hexadecimal::hexadecimal;
use crate::lent::{filling, must_leave, Left, Lent};
use crate::library::match_table;
use crate::matching::second::Second;
use crate::tally::{Kind, Tally};
use crate::ten::tidy;

/// The ten bytes of a match, or the number of a refusal.
pub type Outcome = Result<[u8; 10], u8>;

/// What is known of a function before it is matched.
pub enum Known {
    Nothing,
    Outcome(Outcome),
    /// A tidy block that realises it, so the match is this block or one before it.
    NotAfter([u8; 10]),
}

/// A function of n inputs to ask about.
pub struct Function {
    pub n: u8,
    pub table: Vec<u8>,
    pub known: Known,
}

/// The kinds of answers: a call's, and a function's with ten bytes of room.
const KINDS: [Kind; 2] = [("match", &[0, 1, 2, 3, 4, 5]), ("functions", &[0, 4])];

/// A comparison under way.
pub struct Judge {
    pub tally: Tally,
    second: Second,
}

impl Known {
    /// Whether the outcome agrees with what is known.
    fn allows(&self, outcome: Outcome) -> bool {
        match self {
            Known::Nothing => true,
            Known::Outcome(known) => outcome == *known,
            Known::NotAfter(block) => outcome.is_ok_and(|found| found <= *block),
        }
    }

    /// What is known, for a reader of a difference.
    fn described(&self, n: u8, table: &[u8]) -> String {
        let said = |outcome| described(n, table, outcome);
        match self {
            Known::Nothing => "known: nothing".to_string(),
            Known::Outcome(known) => format!("known: {}", said(*known)),
            Known::NotAfter(block) => format!("known, or one before it: {}", said(Ok(*block))),
        }
    }
}

/// An outcome, for a reader of a difference.
fn described(n: u8, table: &[u8], outcome: Outcome) -> String {
    let block = match outcome {
        Ok(block) => block,
        Err(number) => return format!("R {number}"),
    };
    let order = if tidy(n, &block) { "tidy" } else { "not tidy" };
    let right = n <= 9 && computed(n as usize, &block) == table;
    let sense = if right { "right" } else { "wrong" };
    format!("{} ({order}, {sense} table)", hexadecimal(&block))
}

/// What a call of the product leaves that has a buffer of `room` bytes, and what it must leave.
fn both(n: u8, table: &[u8], room: usize, outcome: Outcome) -> [Left; 2] {
    let filling = filling(room);
    let lent = || [Lent::of(table, filling), Lent::room(room, filling)];
    let [table, mut out] = lent();
    let answer = match_table(n, table.bytes(), out.bytes_mut());
    let left = Left::after(answer, [table, out]);
    [left, must_leave(outcome, lent())]
}

impl Judge {
    /// A comparison that begins, and the command that repeats it.
    pub fn new(repeat: String) -> Judge {
        Judge {
            tally: Tally::new("matching", "functions", &KINDS, repeat),
            second: Second::new(),
        }
    }

    /// Tells of a difference and ends the run.
    fn differ(&self, n: u8, table: &[u8], lines: &[String]) -> ! {
        let question = format!("match n {n}, table {}", hexadecimal(table));
        self.tally.differ(&[&[question], lines].concat())
    }

    /// One call of the product, which must have this outcome.
    pub fn answer(&mut self, n: u8, table: &[u8], room: usize, wanted: Outcome) {
        let [left, right] = both(n, table, room, wanted);
        if left != right {
            let names = ["the lent table", "the lent buffer"];
            let found = hexadecimal(&left.lent[1].bytes()[..room.min(10)]);
            let product = format!("the product {}", left.described(&right, names));
            let wanted = format!("wanted: {}", described(n, table, wanted));
            let buffer = format!("room {room}, the buffer begins with {found}");
            self.differ(n, table, &[product, buffer, wanted]);
        }
        self.tally.answer(0, right.answer.number);
    }

    /// The second matcher's outcome, which must be tidy and right on every row.
    fn ask_second(&self, n: u8, table: &[u8]) -> Outcome {
        let outcome = self.second.find(n as usize, table).ok_or(4);
        let fine = |block: [u8; 10]| tidy(n, &block) && computed(n as usize, &block) == table;
        if !outcome.map_or(true, fine) {
            let said = described(n, table, outcome);
            self.differ(n, table, &[format!("the second matcher: {said}")]);
        }
        outcome
    }

    /// One function: the second matcher agrees with what is known, and the product with the second
    /// matcher, whatever the room. With less than ten bytes of room the refusal is 5, match or no
    /// match.
    fn function(&mut self, Function { n, table, known }: &Function, wanted: Outcome) {
        let n = *n;
        if !known.allows(wanted) {
            let said = described(n, table, wanted);
            let second = format!("the second matcher: {said}");
            self.differ(n, table, &[second, known.described(n, table)]);
        }
        for room in 0..10 {
            self.answer(n, table, room, Err(5));
        }
        for room in 10..=13 {
            self.answer(n, table, room, wanted);
        }
        self.tally.came(1, wanted.err().unwrap_or(0) as usize);
        self.tally.thing();
    }

    /// Functions, for which two threads ask the second matcher.
    pub fn functions(&mut self, functions: &[Function]) {
        let every_other = |first: usize| -> Vec<Outcome> {
            let half = functions.iter().skip(first).step_by(2);
            half.map(|one| self.ask_second(one.n, &one.table)).collect()
        };
        let [even, odd] = std::thread::scope(|scope| {
            let odd = scope.spawn(|| every_other(1));
            [every_other(0), odd.join().expect("the thread ends")]
        });
        for (k, function) in functions.iter().enumerate() {
            let wanted = [&even, &odd][k % 2][k / 2];
            self.function(function, wanted);
        }
    }
}
