//! Requests of which the slot is known, and builds made of them.

use crate::batches::second::{slot, Outcome, Slot};
use crate::document;
use crate::random::Random;
use crate::table::table_length;
use crate::ten::{bytes, joined, OPEN};
use crate::vectors::Line;
use std::ops::RangeInclusive;

/// A build and its outcome.
pub type Case = (Vec<u8>, Outcome);

/// A request and its slot.
#[derive(Clone)]
pub struct Request {
    pub bytes: Vec<u8>,
    pub slot: Slot,
}

/// The requests that builds are made of: those of the vectors and of document 01, and among them
/// those of at most three inputs and those of nine.
pub struct Stock {
    pub all: Vec<Request>,
    pub small: Vec<Request>,
    pub nine: Vec<Request>,
}

impl Request {
    /// The request of a table, and what a single call gives for it.
    pub fn new(n: u8, table: &[u8], outcome: Result<[u8; 10], u8>) -> Request {
        Request {
            bytes: [&[n], table].concat(),
            slot: slot(outcome),
        }
    }
}

impl Stock {
    /// The requests of these vectors, and of document 01.
    pub fn of(vectors: &[Line]) -> Stock {
        let all = [of_vectors(vectors), of_document()].concat();
        let with = |inputs: RangeInclusive<u8>| -> Vec<Request> {
            let some = all.iter().filter(|one| inputs.contains(&one.bytes[0]));
            some.cloned().collect()
        };
        Stock {
            small: with(0..=3),
            nine: with(9..=9),
            all,
        }
    }
}

/// The functions of these vectors.
pub fn of_vectors(lines: &[Line]) -> Vec<Request> {
    let request = |line: &Line| Request::new(line.n, &line.table, line.block.ok_or(4));
    lines.iter().map(request).collect()
}

/// The examples of document 01 that have a slot: P1 to P9 and Q1.
pub fn of_document() -> Vec<Request> {
    let matches = document::matches().into_iter();
    let matched = matches.map(|one| Request::new(one.n, &one.table, Ok(one.block)));
    let tables = document::refused_tables().into_iter();
    let slots = tables.filter(|(_, _, number)| [3, 4].contains(number));
    let refused = slots.map(|(n, table, number)| Request::new(n, &table, Err(number)));
    matched.chain(refused).collect()
}

/// The constant 0 of n inputs. With zeros for contents every wiring computes it, so its block has
/// the first tidy wiring: F and G on the first variables, the direct pin on the very first.
pub fn zero(n: u8) -> Request {
    let pin = |variable: u8| if variable < n { variable } else { OPEN };
    let fields = [0, 1, 2, 3, 0, 1, 2, 3, 0].map(pin);
    let block = bytes(joined(&fields, (0, 0, 0)));
    Request::new(n, &vec![0; table_length(n as usize)], Ok(block))
}

/// The build of some requests.
pub fn build(requests: &[Request]) -> Case {
    let bytes = requests.iter().flat_map(|request| request.bytes.clone());
    let slots = requests.iter().map(|request| request.slot);
    (bytes.collect(), Ok(slots.collect()))
}

/// Puts things in any order, each order as likely as another.
pub fn shuffle<T>(things: &mut [T], random: &mut Random) {
    for place in (1..things.len()).rev() {
        things.swap(place, random.below(place + 1));
    }
}

/// So many requests, each any of these.
pub fn some(among: &[Request], count: usize, random: &mut Random) -> Vec<Request> {
    let one = |_| among[random.below(among.len())].clone();
    (0..count).map(one).collect()
}

#[cfg(test)]
mod tests {
    use super::{build, of_document, shuffle, zero};
    use crate::batches::second::read;
    use crate::random::Random;

    #[test]
    fn the_second_reading_agrees() {
        let mut requests = of_document();
        requests.extend((0..=9).map(zero));
        let (bytes, outcome) = build(&requests);
        assert_eq!(requests.len(), 20);
        assert_eq!(read(&bytes), outcome);
    }

    #[test]
    fn an_order_has_every_thing_once() {
        let mut things: Vec<usize> = (0..100).collect();
        shuffle(&mut things, &mut Random(1));
        assert_ne!(things, (0..100).collect::<Vec<_>>());
        things.sort();
        assert_eq!(things, (0..100).collect::<Vec<_>>());
    }
}
