//! Holds the product's answers about blocks to those of the second versions.

use crate::blocks::parts::Parts;
use crate::blocks::second;
use crate::hexadecimal::hexadecimal;
use crate::lent::{filling, must_leave, said, Left, Lent};
use crate::library::{self, Answer};
use crate::tally::{Kind, Tally};

/// The kinds of answers, with the numbers that must have come, 0 for success: the four calls, the
/// bit of a value, and the digit of each letter's types.
const KINDS: [Kind; 8] = [
    ("check", &[0, 1, 2, 6, 7, 8, 9]),
    ("type", &[0, 1, 2, 6, 7, 8, 9]),
    ("evaluate", &[0, 1, 2, 6, 7, 8, 9, 13]),
    ("pack", &[0, 1, 5, 6, 7, 8]),
    ("values", &[0, 1]),
    ("types of A", &[0, 1, 2, 3, 4]),
    ("types of B", &[0, 1, 2, 3]),
    ("types of C", &[0, 1, 2, 3]),
];

/// A question about a block.
#[derive(Clone, Copy, Debug)]
pub enum Question {
    Check,
    Type,
    Evaluate(u32),
}

/// A comparison under way.
pub struct Judge {
    pub tally: Tally,
}

impl Question {
    /// Its place among the kinds.
    fn kind(self) -> usize {
        match self {
            Question::Check => 0,
            Question::Type => 1,
            Question::Evaluate(_) => 2,
        }
    }

    /// What the product answers.
    fn product(self, n: u8, block: &[u8]) -> Answer {
        match self {
            Question::Check => library::check(n, block),
            Question::Type => library::type_of(n, block),
            Question::Evaluate(row) => library::evaluate(n, block, row),
        }
    }

    /// What the second version answers.
    fn second(self, n: u8, block: &[u8]) -> Answer {
        match self {
            Question::Check => second::check(n, block),
            Question::Type => second::type_of(n, block),
            Question::Evaluate(row) => second::evaluate(n, block, row),
        }
    }
}

impl Judge {
    /// A comparison that begins, and the command that repeats it.
    pub fn new(repeat: String) -> Judge {
        Judge {
            tally: Tally::new("blocks", "blocks and parts", &KINDS, repeat),
        }
    }

    /// Tells of a difference and ends the run.
    fn differ(&self, question: String, left: &Left, wanted: &Left) -> ! {
        let names = ["the block or the fields", "the lent buffer"];
        self.tally.differ(&[
            question,
            format!("the product {}", left.described(wanted, names)),
            format!("the second {}", said(wanted.answer)),
        ])
    }

    /// Asks one question about a block; the answer.
    pub fn ask(&mut self, n: u8, block: &[u8], question: Question) -> Answer {
        let filling = filling(self.tally.answers());
        let lent = || [Lent::of(block, filling), Lent::none()];
        let to_product = lent();
        let answer = question.product(n, to_product[0].bytes());
        let left = Left::after(answer, to_product);
        let wanted = Left {
            answer: question.second(n, block),
            lent: lent(),
        };
        if left != wanted {
            let asked = format!("{question:?}, n {n}, bytes {}", hexadecimal(block));
            self.differ(asked, &left, &wanted);
        }
        self.tally.answer(question.kind(), answer.number);
        answer
    }

    /// Asks everything about a block, its value at these rows.
    pub fn block(&mut self, n: u8, block: &[u8], rows: &[u32]) {
        self.ask(n, block, Question::Check);
        let kind = self.ask(n, block, Question::Type);
        if kind.number == 0 {
            let letter = (kind.part % 256) as usize - b'A' as usize;
            self.tally.came(5 + letter, (kind.part >> 8) as usize);
        }
        for row in rows {
            let value = self.ask(n, block, Question::Evaluate(*row));
            if value.number == 0 {
                self.tally.came(4, value.part as usize);
            }
        }
        self.tally.thing();
    }

    /// Packs parts into a buffer of `room` bytes.
    pub fn pack(&mut self, parts: &Parts, room: usize) {
        let filling = filling(self.tally.answers());
        let lent = || [Lent::of(&parts.fields, filling), Lent::room(room, filling)];
        let [fields, mut out] = lent();
        let nine = fields.bytes().try_into().expect("nine fields");
        let answer = library::pack(parts.n, nine, parts.tables, out.bytes_mut());
        let left = Left::after(answer, [fields, out]);
        let wanted = must_leave(second::pack(parts, room), lent());
        if left != wanted {
            self.differ(format!("pack {parts}, room {room}"), &left, &wanted);
        }
        self.tally.answer(3, answer.number);
    }

    /// Packs parts into every room up to twelve bytes.
    pub fn parts(&mut self, parts: &Parts) {
        for room in 0..=12 {
            self.pack(parts, room);
        }
        self.tally.thing();
    }
}
