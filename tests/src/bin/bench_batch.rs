//! Times the product's matching of a whole build side by side with a single call for each request.
//!
//! usage: bench_batch FILE...
//!
//! A build has a thousand functions of a vector file, from its start and then again. It is matched
//! by one call and by single calls in turn, several times, each going first as often as the other.
//! The slots are held to the answers of the file each time; a difference ends the run with status
//! 1, and so does, at its end, a goal that is not met.

use edges::batches::made::{build, of_vectors};
use edges::batches::second::{requests, Slot, SLOT};
use edges::bench::numbers::{median, print_head, print_row};
use edges::hexadecimal::hexadecimal;
use edges::library::{batch, match_table, Answer};
use edges::vectors;
use edges::words::Words;
use std::time::Instant;

/// How many requests a build has.
const REQUESTS: usize = 1000;

/// How many times each build is matched in both ways.
const ROUNDS: usize = 20;

/// The goal: one call takes at most so many times what the single calls take.
const GOAL: f64 = 1.03;

/// A build, its requests in it, and the slots that the file tells.
struct Sample<'a> {
    bytes: &'a [u8],
    requests: Vec<&'a [u8]>,
    slots: Vec<Slot>,
}

/// A way to match a build, with its name: it writes the slots.
type Way = (&'static str, fn(&Sample, &mut [Slot]));

/// The ways that are timed.
const WAYS: [Way; 2] = [("one call", by_one_call), ("single calls", by_single_calls)];

/// Matches a build by one call.
fn by_one_call(sample: &Sample, slots: &mut [Slot]) {
    let answer = batch(sample.bytes, slots.as_flattened_mut());
    assert_eq!(answer, Answer::success((SLOT * slots.len()) as u64));
}

/// Matches a build by a call for each request.
fn by_single_calls(sample: &Sample, slots: &mut [Slot]) {
    for (request, slot) in sample.requests.iter().zip(slots) {
        slot[0] = match_table(request[0], &request[1..], &mut slot[1..]).number;
    }
}

/// Matches a build in one way, in seconds; a slot that is not the file's ends the run.
fn timed((name, find): Way, sample: &Sample) -> f64 {
    let mut slots = vec![[0; SLOT]; sample.requests.len()];
    let start = Instant::now();
    find(sample, &mut slots);
    let took = start.elapsed().as_secs_f64();
    let mut pairs = slots.iter().zip(&sample.slots);
    if let Some(place) = pairs.position(|(slot, wanted)| slot != wanted) {
        let [slot, wanted] = [slots[place], sample.slots[place]].map(|slot| hexadecimal(&slot));
        println!("differ: request {}", hexadecimal(sample.requests[place]));
        println!("  {name}: {slot}, the file: {wanted}");
        std::process::exit(1);
    }
    took
}

/// The seconds of both ways, round by round.
fn times(sample: &Sample) -> [Vec<f64>; 2] {
    let mut times = [vec![], vec![]];
    for round in 0..ROUNDS {
        for k in [round % 2, 1 - round % 2] {
            times[k].push(timed(WAYS[k], sample));
        }
    }
    times
}

/// Prints what the table means, and its head.
fn head() {
    println!(
        "Builds of {REQUESTS} requests. Requests in a second: under one call and single calls"
    );
    println!(
        "the best of {ROUNDS} rounds, and then the median. Ratio is the least time of one call"
    );
    println!("over the least of the single calls; the last column is the median of that ratio in");
    println!("each round. Both are asked in turn, and every slot is compared with the file's.");
    let mut names = vec![format!("{:12}", "functions")];
    let columns = [
        WAYS[0].0, "median", WAYS[1].0, "median", "ratio", "by round",
    ];
    names.extend(columns.map(|name| format!("{name:>12}")));
    print_head(&names);
}

/// Prints the row of a build; the ratio.
fn row(name: &str, [whole, calls]: &[Vec<f64>; 2]) -> f64 {
    let least = |times: &[f64]| times.iter().copied().fold(f64::INFINITY, f64::min);
    let speed = |seconds: f64| format!("{:12.0}", REQUESTS as f64 / seconds);
    let ratio = least(whole) / least(calls);
    let ratios: Vec<f64> = whole
        .iter()
        .zip(calls)
        .map(|(one, other)| one / other)
        .collect();
    let mut row = vec![format!("{name:12}")];
    for times in [whole, calls] {
        row.extend([speed(least(times)), speed(median(times))]);
    }
    row.extend([ratio, median(&ratios)].map(|ratio| format!("{ratio:12.3}")));
    print_row(&row);
    ratio
}

/// Times a build of the functions of a file and prints its row; the ratio.
fn measured(path: &str) -> f64 {
    let functions = of_vectors(&vectors::lines(path)).into_iter();
    let (bytes, outcome) = build(&functions.cycle().take(REQUESTS).collect::<Vec<_>>());
    let sample = Sample {
        bytes: &bytes,
        requests: requests(&bytes).expect("a right build"),
        slots: outcome.expect("a right build"),
    };
    let file = path.rsplit('/').next().unwrap_or(path);
    row(file.trim_end_matches(".txt"), &times(&sample))
}

/// Times every file given and prints the table, then the goal.
fn main() {
    let paths = Words::given("bench_batch FILE...").rest();
    head();
    let ratios: Vec<f64> = paths.iter().map(|path| measured(path)).collect();
    let met = ratios.iter().all(|ratio| *ratio <= GOAL);
    let came = if met { "met" } else { "not met" };
    println!("Goal: one call takes at most {GOAL} times what the single calls take: {came}.");
    std::process::exit(!met as i32);
}
