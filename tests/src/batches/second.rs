//! A second reading of builds, made only to check the product's.
//!
//! It goes from the end of a build to its start, and asks of every place, whether or not a request
//! begins there, if requests could stand from there to the end with nothing left over. A build is
//! right if the answer is yes at its start. A table's length comes from its rows, eight to a byte.
//! The slots are those of single calls.

use crate::library::match_table;
use std::iter::successors;

/// The bytes of a slot.
pub const SLOT: usize = 11;

/// The slot of a request: 0 or the number of its refusal, and ten bytes.
pub type Slot = [u8; SLOT];

/// What a build gives: its slots, or the number of the refusal.
pub type Outcome = Result<Vec<Slot>, u8>;

/// Where a request ends that begins at a place, if n is at most 9 and its table ends in the build.
fn end(build: &[u8], place: usize) -> Option<usize> {
    let n = Some(build[place]).filter(|n| *n <= 9)?;
    let end = place + 1 + (1usize << n).div_ceil(8);
    (end <= build.len()).then_some(end)
}

/// For each place of a build from which requests could stand to its end, the end of the first.
fn ends(build: &[u8]) -> Vec<Option<usize>> {
    let mut ends: Vec<Option<usize>> = vec![None; build.len() + 1];
    for place in (0..build.len()).rev() {
        let whole = |end: &usize| *end == build.len() || ends[*end].is_some();
        ends[place] = end(build, place).filter(whole);
    }
    ends
}

/// The requests of a build, if it is right.
pub fn requests(build: &[u8]) -> Option<Vec<&[u8]>> {
    let ends = ends(build);
    let places: Vec<usize> = successors(Some(0), |place| ends[*place]).collect();
    let requests = places.windows(2).map(|pair| &build[pair[0]..pair[1]]);
    (places.last() == Some(&build.len())).then(|| requests.collect())
}

/// The slot of a match, or of a refusal with a number.
pub fn slot(outcome: Result<[u8; 10], u8>) -> Slot {
    let (number, ten) = match outcome {
        Ok(ten) => (0, ten),
        Err(number) => (number, [0; 10]),
    };
    let mut slot = [number; SLOT];
    slot[1..].copy_from_slice(&ten);
    slot
}

/// The slot of a request, by a single call.
fn single(request: &[u8]) -> Slot {
    let mut ten = [0; 10];
    let answer = match_table(request[0], &request[1..], &mut ten);
    match (answer.number, answer.part) {
        (0, 10) => slot(Ok(ten)),
        (3 | 4, 0) => slot(Err(answer.number)),
        _ => panic!("a single call for {request:02X?} gives {answer:?}"),
    }
}

/// Reads a build into as much room as is needed.
pub fn read(build: &[u8]) -> Outcome {
    let requests = requests(build).ok_or(14)?;
    Ok(requests.into_iter().map(single).collect())
}

/// The outcome where there is so much room.
pub fn within(outcome: &Outcome, room: usize) -> Outcome {
    match outcome {
        Ok(slots) if room < SLOT * slots.len() => Err(5),
        _ => outcome.clone(),
    }
}

#[cfg(test)]
mod tests {
    use super::{end, read, requests, slot, within};
    use crate::batches::groups::damaged_build;
    use crate::batches::made::Stock;
    use crate::random::Random;
    use crate::table::table_length;
    use crate::ten::bytes;
    use crate::vectors;

    /// The requests that a walk from the start counts, if it ends with the build.
    fn walked(build: &[u8]) -> Option<usize> {
        let (mut place, mut count) = (0, 0);
        while place < build.len() {
            let n = Some(build[place]).filter(|n| *n < 10)?;
            place += 1 + table_length(n as usize);
            count += 1;
        }
        (place == build.len()).then_some(count)
    }

    #[test]
    fn divides_a_build_where_its_requests_end() {
        let build = [3, 9, 0, 0, 5, 9, 9, 9, 9, 4, 10, 255];
        let parts: [&[u8]; 4] = [&[3, 9], &[0, 0], &[5, 9, 9, 9, 9], &[4, 10, 255]];
        assert_eq!(requests(&build), Some(parts.to_vec()));
        assert_eq!(requests(&build[..11]), None);
        assert_eq!(requests(&build[1..]), None);
        assert_eq!(requests(&[]), Some(vec![]));
        assert_eq!(requests(&[0]), None);
        assert_eq!(requests(&[10, 0]), None);
    }

    #[test]
    fn knows_the_length_of_each_table() {
        let lengths = [1, 1, 1, 1, 2, 4, 8, 16, 32, 64];
        for (n, length) in (0..).zip(lengths) {
            let build = [vec![n], vec![0; length]].concat();
            assert_eq!(end(&build, 0), Some(length + 1));
            assert_eq!(end(&build[..length], 0), None);
        }
    }

    #[test]
    fn agrees_with_a_walk_from_the_start() {
        let folder = concat!(env!("CARGO_MANIFEST_DIR"), "/vectors");
        let stock = Stock::of(&vectors::all(folder));
        let mut random = Random(1);
        let mut right = 0;
        for _ in 0..20_000 {
            let build = damaged_build(&stock, &mut random);
            let count = requests(&build).map(|requests| requests.len());
            assert_eq!(count, walked(&build), "{build:02X?}");
            right += count.is_some() as usize;
        }
        assert!((5000..15_000).contains(&right), "{right} are right");
    }

    #[test]
    fn reads_a_match_and_refusals() {
        let identity = slot(Ok(bytes(0x0F_FF_0F_FF_00_00_00_00_04_00)));
        let wanted = Ok(vec![slot(Err(3)), identity]);
        assert_eq!(identity[..3], [0, 0x0F, 0xFF]);
        assert_eq!(slot(Err(3)), [3, 0, 0, 0, 0, 0, 0, 0, 0, 0, 0]);
        let outcome = read(&[2, 0x81, 1, 0x40]);
        assert_eq!(outcome, wanted);
        assert_eq!(within(&outcome, 22), wanted);
        assert_eq!(within(&outcome, 21), Err(5));
        assert_eq!(within(&read(&[2, 0x81, 1]), 0), Err(14));
    }
}
