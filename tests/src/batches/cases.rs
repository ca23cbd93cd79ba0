//! Builds of which the outcome follows from the request by hand.

use crate::batches::made::{build, of_document, zero, Case, Request};
use crate::document;
use crate::table::table_length;

/// How many requests long builds have: beside 8 and 16 bits of them, and of the bytes of their
/// slots.
const MANY: [usize; 10] = [23, 24, 255, 256, 257, 5957, 5958, 65_535, 65_536, 65_537];

/// A request that is refused with 3, and its slot.
fn padded() -> Request {
    Request::new(0, &[0x01], Err(3))
}

/// A match of document 01, counted from 0.
fn matched(place: usize) -> Request {
    let one = &document::matches()[place];
    Request::new(one.n, &one.table, Ok(one.block))
}

/// No request, and each by itself: the examples, and the constant 0 of every n.
fn alone() -> Vec<Case> {
    let mut requests = of_document();
    requests.extend((0..=9).map(zero));
    let none = [build(&[])];
    let alone = requests.into_iter().map(|request| build(&[request]));
    none.into_iter().chain(alone).collect()
}

/// The examples in their order, turned about and each twice, and so a request of every n.
fn together() -> Vec<Case> {
    let numbers: Vec<Request> = (0..=9).map(zero).collect();
    let mut cases = vec![];
    for mut requests in [of_document(), numbers] {
        cases.push(build(&requests));
        requests.reverse();
        cases.push(build(&requests));
        let pairs = requests.into_iter().map(|one| vec![one; 2]);
        cases.push(build(&pairs.collect::<Vec<_>>().concat()));
    }
    cases
}

/// Matches and both refusals in every order, three of them.
fn triples() -> Vec<Case> {
    let [_, (n, table, number), ..] = document::refused_tables();
    let no_match = Request::new(n, &table, Err(number));
    let kinds = [matched(0), matched(2), matched(4), padded(), no_match];
    let mut cases = vec![];
    for number in 0..5 * 5 * 5 {
        let places = [number / 25, number / 5 % 5, number % 5];
        cases.push(build(&places.map(|place| kinds[place].clone())));
    }
    cases
}

/// Parts of a build that is refused with 14.
fn broken(parts: &[&[u8]]) -> Case {
    (parts.concat(), Err(14))
}

/// Every n above 9, first, between right requests and last, with a table of some length or none.
fn wide() -> Vec<Case> {
    let (right, other) = (matched(2).bytes, matched(3).bytes);
    let mut cases = vec![];
    for n in 10..=255 {
        let length = table_length((n as usize % 16).min(9));
        let wrong = [&[n], &vec![0; length][..]].concat();
        cases.push(broken(&[&wrong]));
        cases.push(broken(&[&wrong, &right]));
        cases.push(broken(&[&other, &wrong, &right]));
        cases.push(broken(&[&right, &other, &wrong]));
        cases.push(broken(&[&right, &[n]]));
        cases.push(broken(&[&right, &[n, 0]]));
    }
    cases
}

/// Some n above 9, each with all the bytes that its table would have, alone and between right
/// requests.
fn wide_and_whole() -> Vec<Case> {
    let (right, other) = (matched(2).bytes, matched(3).bytes);
    let mut cases = vec![];
    for n in 10..=16 {
        let wrong = [&[n], &vec![0; table_length(n as usize)][..]].concat();
        cases.push(broken(&[&wrong]));
        cases.push(broken(&[&other, &wrong, &right]));
    }
    cases
}

/// Tables that run past the end, by one byte and by more, of which no byte is there or all but one.
fn short() -> Vec<Case> {
    let right = matched(2).bytes;
    let mut cases = vec![];
    for n in 0..=9 {
        let whole = zero(n).bytes;
        for length in 1..whole.len() {
            let cut = &whole[..length];
            cases.push(broken(&[cut]));
            cases.push(broken(&[&right, cut]));
            cases.push(broken(&[&whole, &right, cut]));
        }
    }
    let [_, _, _, (n, table, _)] = document::refused_tables();
    cases.push(broken(&[&[n], &table]));
    cases
}

/// Every build of few requests.
pub fn all() -> Vec<Case> {
    let right = [alone(), together(), triples()];
    let wrong = [wide(), wide_and_whole(), short()];
    right.into_iter().chain(wrong).flatten().collect()
}

/// Builds of many requests, all of them refused with 3, or all but the first and the last; and with
/// an n alone after them.
pub fn many() -> Vec<Case> {
    let mut cases = vec![];
    for count in MANY {
        let mut requests = vec![padded(); count];
        cases.push(build(&requests));
        requests[0] = matched(0);
        requests[count - 1] = matched(2);
        let (bytes, outcome) = build(&requests);
        cases.push(broken(&[&bytes, &[0]]));
        cases.push(broken(&[&bytes, &[255, 0]]));
        cases.push((bytes, outcome));
    }
    cases
}

#[cfg(test)]
mod tests {
    use super::{all, many};
    use crate::batches::second::read;

    #[test]
    fn the_second_reading_agrees() {
        for (build, outcome) in all().into_iter().chain(many()) {
            let shown = &build[..build.len().min(80)];
            assert_eq!(read(&build), outcome, "{shown:02X?}");
        }
    }
}
