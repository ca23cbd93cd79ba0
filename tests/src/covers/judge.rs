//! Holds the product's answers about covers to those of the second reader.

use crate::covers::second::{read, within, Outcome};
use crate::hexadecimal::hexadecimal;
use crate::lent::{filling, said, Left, Lent};
use crate::library::{cover, match_table, Answer};
use crate::tally::{Kind, Tally};

/// The kinds of answers, with the numbers that must have come, 0 for success: a call's, and the
/// inputs of a cover that was read.
const KINDS: [Kind; 2] = [
    ("cover", &[0, 15, 1, 16, 17, 5]),
    ("inputs", &[0, 1, 2, 3, 4, 5, 6, 7, 8, 9]),
];

/// The most bytes of a text that are shown.
const SHOWN: usize = 1000;

/// A comparison under way.
pub struct Judge {
    pub tally: Tally,
}

/// A text for a reader of a difference.
fn shown(text: &[u8]) -> String {
    let (length, part) = (text.len(), &text[..text.len().min(SHOWN)]);
    let more = if length > SHOWN { " ..." } else { "" };
    format!("cover of {length} bytes: \"{}\"{more}", part.escape_ascii())
}

/// An outcome for a reader of a difference.
fn told(outcome: &Outcome) -> String {
    match outcome {
        Ok((n, table)) => format!("n {n}, table {}", hexadecimal(table)),
        Err(number) => format!("refusal {number}"),
    }
}

/// What a call must leave that has this outcome and these buffers.
fn must_leave(outcome: &Outcome, mut lent: [Lent; 2]) -> Left {
    let answer = match outcome {
        Ok((n, table)) => {
            lent[1].put(0, table);
            Answer::success((table.len() as u64) << 8 | *n as u64)
        }
        Err(number) => Answer::refusal(*number),
    };
    Left { answer, lent }
}

impl Judge {
    /// A comparison that begins, and the command that repeats it.
    pub fn new(repeat: String) -> Judge {
        Judge {
            tally: Tally::new("covers", "texts", &KINDS, repeat),
        }
    }

    /// Tells of a difference about a text and ends the run.
    pub fn differ(&self, text: &[u8], lines: &[String]) -> ! {
        self.tally.differ(&[&[shown(text)], lines].concat())
    }

    /// One call of the product with this much room, which must have this outcome.
    fn answer(&mut self, text: &[u8], room: usize, wanted: &Outcome) {
        let filling = filling(self.tally.answers());
        let lent = || [Lent::of(text, filling), Lent::room(room, filling)];
        let [to_read, mut out] = lent();
        let answer = cover(to_read.bytes(), out.bytes_mut());
        let left = Left::after(answer, [to_read, out]);
        let must = must_leave(wanted, lent());
        if left != must {
            let names = ["the lent text", "the lent buffer"];
            let product = format!("room {room}: the product {}", left.described(&must, names));
            let second = format!("the second: {}", told(wanted));
            self.differ(text, &[product, second]);
        }
        self.tally.answer(0, answer.number);
    }

    /// Asks about a text with each of these rooms; the outcome where there is room enough.
    pub fn outcome(&mut self, text: &[u8], rooms: &[usize]) -> Outcome {
        let outcome = read(text);
        for room in rooms {
            self.answer(text, *room, &within(&outcome, *room));
        }
        if let Ok((n, _)) = outcome {
            self.tally.came(1, n as usize);
        }
        self.tally.thing();
        outcome
    }

    /// Asks about a text with this much room.
    pub fn text(&mut self, text: &[u8], room: usize) {
        let _ = self.outcome(text, &[room]);
    }

    /// Asks about a text of which the outcome is known, with each of these rooms.
    pub fn known(&mut self, text: &[u8], rooms: &[usize], known: &Outcome) {
        let outcome = self.outcome(text, rooms);
        if outcome != *known {
            let both = format!("the product and the second: {}", told(&outcome));
            self.differ(text, &[both, format!("known: {}", told(known))]);
        }
    }

    /// Matches the table that was read from a text: it is one, so it fits or no block computes it.
    pub fn matched(&self, text: &[u8], n: u8, table: &[u8]) {
        let answer = match_table(n, table, &mut [0; 10]);
        if answer != Answer::success(10) && answer != Answer::refusal(4) {
            let read = format!("n {n}, table {}", hexadecimal(table));
            self.differ(text, &[read, format!("matching it {}", said(answer))]);
        }
    }
}
