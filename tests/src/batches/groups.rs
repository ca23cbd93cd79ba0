//! The groups of builds: how those of each are made, and what is asked about them.

use crate::batches::cases;
use crate::batches::damage::DAMAGES;
use crate::batches::judge::Judge;
use crate::batches::made::{build, shuffle, some, Case, Request, Stock};
use crate::batches::second::{requests, SLOT};
use crate::matching;
use crate::random::Random;
use crate::table::refusal;

/// Makes the builds of a group and asks about them.
type Group = fn(&mut Judge, &Stock, &mut Random);

/// The groups and their names.
const GROUPS: [(&str, Group); 9] = [
    ("known by hand", known),
    ("many requests", many),
    ("vectors and examples, each alone", each_alone),
    ("every table of one byte", one_byte),
    ("vectors and examples in any order", in_any_order),
    ("many of nine inputs", nine_inputs),
    ("one after the other", one_after_the_other),
    ("cut at each length", cut),
    ("damaged", damaged),
];

/// How many times the vectors are put in another order.
const ORDERS: usize = 5;

/// How many requests of nine inputs long builds have: fewer than the program for builds takes, as
/// many, and more.
const OF_NINE: [usize; 3] = [1000, 1008, 2000];

/// How many pairs of builds are put together, and builds are cut at each length.
const PAIRS: usize = 400;
const CUT: usize = 40;

/// How many builds are damaged, and the most requests that they have before.
const DAMAGED: usize = 30_000;
const MOST: usize = 12;

/// The room that the slots of a build need, or more than enough if it is refused.
fn needed(build: &[u8]) -> usize {
    SLOT * requests(build).map_or(build.len(), |requests| requests.len())
}

/// Rooms of all kinds for a build: too small, just so, and more.
fn rooms(build: &[u8]) -> Vec<usize> {
    let needed = needed(build);
    let less = [SLOT, 1].map(|by| needed.saturating_sub(by));
    let more = [0, 1, SLOT, 300].map(|by| needed + by);
    [&[0, 1, 10, 11, 12][..], &less, &more].concat()
}

/// The rooms beside what a build needs.
fn beside(build: &[u8]) -> [usize; 3] {
    let needed = needed(build);
    [needed.saturating_sub(1), needed, needed + 1]
}

/// Builds of which the outcome follows by hand.
fn known(judge: &mut Judge, _: &Stock, _: &mut Random) {
    for (build, outcome) in cases::all() {
        judge.known(&build, &rooms(&build), &outcome);
    }
}

/// Builds of many requests.
fn many(judge: &mut Judge, _: &Stock, _: &mut Random) {
    for (build, outcome) in cases::many() {
        judge.known(&build, &beside(&build), &outcome);
    }
}

/// Each vector and each example is a build of one request.
fn each_alone(judge: &mut Judge, stock: &Stock, _: &mut Random) {
    for request in &stock.all {
        let (build, outcome) = build(std::slice::from_ref(request));
        judge.known(&build, &beside(&build), &outcome);
    }
}

/// The request of a byte and n up to 3: wrong padding, or one of the vectors.
fn of_one_byte(stock: &Stock, n: u8, byte: u8) -> Request {
    let vector = || stock.small.iter().find(|one| one.bytes == [n, byte]);
    match refusal(n, &[byte]) {
        Some(number) => Request::new(n, &[byte], Err(number)),
        None => vector().expect("a vector of each small table").clone(),
    }
}

/// The requests of every byte as the table of each n up to 3.
pub fn of_one_byte_each(stock: &Stock) -> Vec<Request> {
    let numbers = (0..=3).flat_map(|n| (0..=255).map(move |byte| (n, byte)));
    let requests = numbers.map(|(n, byte)| of_one_byte(stock, n, byte));
    requests.collect()
}

/// Every table of one byte in one build, in order and in any other.
fn one_byte(judge: &mut Judge, stock: &Stock, random: &mut Random) {
    let mut requests = of_one_byte_each(stock);
    for _ in 0..3 {
        let (build, outcome) = build(&requests);
        judge.known(&build, &beside(&build), &outcome);
        shuffle(&mut requests, random);
    }
}

/// Every vector and every example in one build, in any order, and in builds of some length.
fn in_any_order(judge: &mut Judge, stock: &Stock, random: &mut Random) {
    let mut requests = stock.all.clone();
    for _ in 0..ORDERS {
        shuffle(&mut requests, random);
        let length = 1 + random.below(40);
        for part in requests.chunks(length).chain([&requests[..]]) {
            let (build, outcome) = build(part);
            judge.known(&build, &beside(&build), &outcome);
        }
    }
}

/// Builds of a thousand requests of nine inputs and more.
fn nine_inputs(judge: &mut Judge, stock: &Stock, random: &mut Random) {
    for count in OF_NINE {
        let (build, outcome) = build(&some(&stock.nine, count, random));
        judge.known(&build, &beside(&build), &outcome);
    }
}

/// A build of up to five functions made anew, mostly of few inputs.
fn made_anew(random: &mut Random) -> Vec<u8> {
    let mut build = vec![];
    for _ in 0..random.below(6) {
        let n = random.below(10).min(random.below(10)) as u8;
        let (_, make) = random.one(&matching::made::KINDS);
        build.push(n);
        build.extend(make(n, random).table);
    }
    build
}

/// Two builds one after the other give the slots of both, one after the other; and what is refused
/// after them makes the whole refused.
pub fn one_pair(judge: &mut Judge, random: &mut Random) {
    let builds = [made_anew(random), made_anew(random)];
    let outcomes = builds
        .each_ref()
        .map(|build| judge.outcome(build, &beside(build)));
    let slots = outcomes.map(|outcome| outcome.expect("a right build"));
    let both = builds.concat();
    judge.known(&both, &beside(&both), &Ok(slots.concat()));
    let refused = [&both, &[random.one(&[0, 9, 10, 255])][..]].concat();
    judge.known(&refused, &beside(&refused), &Err(14));
}

/// Builds one after the other.
fn one_after_the_other(judge: &mut Judge, _: &Stock, random: &mut Random) {
    for _ in 0..PAIRS {
        one_pair(judge, random);
    }
}

/// The outcome of the first bytes of a build of these requests.
fn cut_outcome(requests: &[Request], length: usize) -> Case {
    let whole = |count: &usize| build(&requests[..*count]).0.len() == length;
    let bytes = build(requests).0[..length].to_vec();
    match (0..=requests.len()).find(whole) {
        Some(count) => build(&requests[..count]),
        None => (bytes, Err(14)),
    }
}

/// Builds cut at each length: at the end of a request the shorter build, everywhere else none.
fn cut(judge: &mut Judge, stock: &Stock, random: &mut Random) {
    for count in (0..CUT).map(|round| round % 8) {
        let requests = some(&stock.all, count, random);
        for length in 0..=build(&requests).0.len() {
            let (build, outcome) = cut_outcome(&requests, length);
            judge.known(&build, &beside(&build), &outcome);
        }
    }
}

/// A build of some vectors and examples, most of them with few inputs.
fn begun(stock: &Stock, random: &mut Random) -> Vec<u8> {
    let count = random.below(MOST + 1).min(random.below(MOST + 1));
    let mut requests = some(&stock.small, count, random);
    if random.below(3) == 0 {
        requests.extend(some(&stock.all, 1, random));
        shuffle(&mut requests, random);
    }
    build(&requests).0
}

/// A build damaged in up to three ways.
pub fn damaged_build(stock: &Stock, random: &mut Random) -> Vec<u8> {
    let mut build = begun(stock, random);
    for _ in 0..random.one(&[0, 1, 1, 1, 2, 3]) {
        let other = begun(stock, random);
        random.one(&DAMAGES)(&mut build, &other, random);
    }
    build
}

/// A build damaged in up to three ways, with any room and with enough, in either order.
pub fn one_damaged(judge: &mut Judge, stock: &Stock, random: &mut Random) {
    let build = damaged_build(stock, random);
    let needed = needed(&build);
    let any = [0, needed.saturating_sub(1), random.below(needed + 1)];
    let mut rooms = [random.one(&any), needed + random.below(3)];
    shuffle(&mut rooms, random);
    let _ = judge.outcome(&build, &rooms);
}

/// Builds damaged in up to three ways.
fn damaged(judge: &mut Judge, stock: &Stock, random: &mut Random) {
    for _ in 0..DAMAGED {
        one_damaged(judge, stock, random);
    }
}

/// Asks about every group, on builds that follow from the vectors and a seed.
pub fn all(judge: &mut Judge, stock: &Stock, seed: u64) {
    let mut random = Random(seed);
    for (name, work) in GROUPS {
        work(judge, stock, &mut random);
        judge.tally.group_done(name);
    }
}
