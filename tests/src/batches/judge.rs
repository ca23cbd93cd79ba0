//! Holds the product's answers about builds to those of the second reading.

use crate::batches::second::{read, requests, within, Outcome, SLOT};
use crate::hexadecimal::hexadecimal;
use crate::lent::{filling, Left, Lent};
use crate::library::{batch, Answer};
use crate::tally::{Kind, Tally};

/// The kinds of answers, with the numbers that must have come, 0 for success: a call's, a slot's,
/// and the inputs of a request in a build that was read.
const KINDS: [Kind; 3] = [
    ("batch", &[0, 14, 5]),
    ("slots", &[0, 3, 4]),
    ("inputs", &[0, 1, 2, 3, 4, 5, 6, 7, 8, 9]),
];

/// The most bytes of a build that are shown.
const SHOWN: usize = 500;

/// A comparison under way.
pub struct Judge {
    pub tally: Tally,
}

/// A build for a reader of a difference.
fn shown(build: &[u8]) -> String {
    let (length, part) = (build.len(), &build[..build.len().min(SHOWN)]);
    let more = if length > SHOWN { " ..." } else { "" };
    format!("build of {length} bytes: {}{more}", hexadecimal(part))
}

/// An outcome for a reader of a difference, the slot of one place alone.
fn told(outcome: &Outcome, place: usize) -> String {
    let slots = match outcome {
        Ok(slots) => slots,
        Err(number) => return format!("refusal {number}"),
    };
    let slot = slots.get(place);
    let slot = slot.map_or("none".to_string(), |slot| hexadecimal(slot));
    format!("{} slots, slot {place} is {slot}", slots.len())
}

/// What a call must leave that has this outcome and these buffers.
fn must_leave(outcome: &Outcome, mut lent: [Lent; 2]) -> Left {
    let answer = match outcome {
        Ok(slots) => {
            lent[1].put(0, slots.as_flattened());
            Answer::success((SLOT * slots.len()) as u64)
        }
        Err(number) => Answer::refusal(*number),
    };
    Left { answer, lent }
}

/// The first slot in which two calls leave their second buffer different, or 0.
fn first_changed(left: &Left, must: &Left) -> usize {
    let [is, wanted] = [left, must].map(|left| left.lent[1].bytes());
    let place = is.iter().zip(wanted).position(|(is, must)| is != must);
    place.unwrap_or(0) / SLOT
}

/// The first place at which two outcomes have different slots, or one of them has none.
fn first_different(one: &Outcome, other: &Outcome) -> usize {
    let slots = |outcome: &Outcome| outcome.clone().unwrap_or_default();
    let (one, other) = (slots(one), slots(other));
    let same = one
        .iter()
        .zip(&other)
        .take_while(|(one, other)| one == other);
    same.count()
}

impl Judge {
    /// A comparison that begins, and the command that repeats it.
    pub fn new(repeat: String) -> Judge {
        Judge {
            tally: Tally::new("batches", "builds", &KINDS, repeat),
        }
    }

    /// Tells of a difference about a build and ends the run.
    fn differ(&self, build: &[u8], lines: &[String]) -> ! {
        self.tally.differ(&[&[shown(build)], lines].concat())
    }

    /// One call of the product with this much room, which must have this outcome.
    fn answer(&mut self, build: &[u8], room: usize, wanted: &Outcome) {
        let filling = filling(self.tally.answers());
        let lent = || [Lent::of(build, filling), Lent::room(room, filling)];
        let [to_read, mut out] = lent();
        let answer = batch(to_read.bytes(), out.bytes_mut());
        let left = Left::after(answer, [to_read, out]);
        let must = must_leave(wanted, lent());
        if left != must {
            let names = ["the lent build", "the lent buffer"];
            let product = format!("room {room}: the product {}", left.described(&must, names));
            let place = first_changed(&left, &must);
            let second = format!("the second: {}", told(wanted, place));
            self.differ(build, &[product, second]);
        }
        self.tally.answer(0, answer.number);
    }

    /// Notes what came in a build that was read.
    fn note(&mut self, build: &[u8], outcome: &Outcome) {
        for slot in outcome.iter().flatten() {
            self.tally.came(1, slot[0] as usize);
        }
        for request in requests(build).iter().flatten() {
            self.tally.came(2, request[0] as usize);
        }
        self.tally.thing();
    }

    /// Asks about a build with each of these rooms; the outcome where there is room enough.
    pub fn outcome(&mut self, build: &[u8], rooms: &[usize]) -> Outcome {
        let outcome = read(build);
        for room in rooms {
            self.answer(build, *room, &within(&outcome, *room));
        }
        self.note(build, &outcome);
        outcome
    }

    /// Asks about a build of which the outcome is known, with each of these rooms, each with both
    /// fillings.
    pub fn known(&mut self, build: &[u8], rooms: &[usize], known: &Outcome) {
        let twice: Vec<usize> = rooms.iter().flat_map(|room| [*room; 2]).collect();
        let outcome = self.outcome(build, &twice);
        if outcome != *known {
            let place = first_different(&outcome, known);
            let both = format!("the product and the second: {}", told(&outcome, place));
            self.differ(build, &[both, format!("known: {}", told(known, place))]);
        }
    }
}
