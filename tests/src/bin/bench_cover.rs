//! Times the product's reading of covers side by side with a fast reader.
//!
//! usage: bench_cover
//!
//! The texts are made from a fixed seed. Each is read by both in turn, several times. Answers and
//! tables are compared each time, and once with those of the second reader; a difference ends the
//! run with status 1.

use edges::bench::numbers::{median, print_head, print_row};
use edges::bench::reader;
use edges::bench::texts::{Maker, KINDS};
use edges::covers::second;
use edges::lent::said;
use edges::library::{cover, Answer};
use edges::random::Random;
use std::time::Instant;

/// The megabytes of the texts, of 1,000,000 bytes each.
const SIZES: [usize; 2] = [1, 8];

/// How many times each text is read by both.
const ROUNDS: usize = 15;

/// The goal: so many megabytes in a second, or this part of the fast reader's speed.
const GOAL: f64 = 100.0;
const PART: f64 = 0.5;

/// An answer, and the longest table that it can be about.
type Given = (Answer, [u8; 64]);

/// The speeds of both on one text, in megabytes in a second.
#[derive(Default)]
struct Speeds {
    product: Vec<f64>,
    reader: Vec<f64>,
}

/// Reads a text by one of them: what it gives, and how fast.
fn timed(read: fn(&[u8], &mut [u8]) -> Answer, text: &[u8]) -> (Given, f64) {
    let mut table = [0; 64];
    let start = Instant::now();
    let answer = read(text, &mut table);
    let took = start.elapsed().as_secs_f64();
    ((answer, table), text.len() as f64 / 1e6 / took)
}

/// What the second reader gives for a cover.
fn by_second(text: &[u8]) -> Given {
    let (n, bytes) = second::read(text).expect("a cover");
    let mut table = [0; 64];
    table[..bytes.len()].copy_from_slice(&bytes);
    (Answer::success((bytes.len() as u64) << 8 | n as u64), table)
}

/// Ends the run if the product and another do not give the same.
fn compare(name: &str, product: Given, other: Given) {
    if product != other {
        let (here, there) = (said(product.0), said(other.0));
        println!("differ: {name}");
        println!("  the product {here}, another {there}, or their tables differ");
        std::process::exit(1);
    }
}

/// Reads a text by both in turn.
fn speeds(name: &str, text: &[u8]) -> Speeds {
    let mut speeds = Speeds::default();
    let (product, _) = timed(cover, text);
    compare(name, product, by_second(text));
    for _ in 0..ROUNDS {
        let (here, product) = timed(cover, text);
        let (there, reader) = timed(reader::read, text);
        compare(name, here, there);
        speeds.product.push(product);
        speeds.reader.push(reader);
    }
    speeds
}

/// Prints what the table means, and its head.
fn head() {
    println!(
        "Covers. Megabytes, of 1,000,000 bytes, in a second: under product and reader the best"
    );
    println!(
        "of {ROUNDS} readings of a text, and then the median; ratio is the product's best over"
    );
    println!(
        "the reader's. Growth is the product's time for a byte over that in the smaller text,"
    );
    println!(
        "about 1 if time grows as the text does. The reader is tests/src/bench/reader.rs. Each"
    );
    println!("text is read by both in turn; answers and tables are compared.");
    let mut names = vec![format!("{:19}", "text"), format!("{:>2}", "MB")];
    let columns = ["product", "median", "growth", "reader", "median", "ratio"];
    names.extend(columns.map(|name| format!("{name:>7}")));
    print_head(&names);
}

/// The best of some speeds.
fn best(speeds: &[f64]) -> f64 {
    speeds.iter().copied().fold(0.0, f64::max)
}

/// Prints the row of a text; the product's speed, and the ratio.
fn row(name: &str, megabytes: usize, speeds: &Speeds, smaller: Option<f64>) -> (f64, f64) {
    let (product, reader) = (best(&speeds.product), best(&speeds.reader));
    let growth = smaller.unwrap_or(product) / product;
    let medians = [&speeds.product, &speeds.reader].map(|all| median(all));
    print_row(&[
        format!("{name:19}"),
        format!("{megabytes:2}"),
        format!("{product:7.0}"),
        format!("{:7.0}", medians[0]),
        format!("{growth:7.2}"),
        format!("{reader:7.0}"),
        format!("{:7.0}", medians[1]),
        format!("{:7.2}", product / reader),
    ]);
    (product, product / reader)
}

/// Times texts of one kind and prints a row for each; whether all reach the goal.
fn rows(name: &str, make: Maker, random: &mut Random) -> bool {
    let (mut smaller, mut reached) = (None, true);
    for megabytes in SIZES {
        let text = make(megabytes * 1_000_000, random);
        let (speed, ratio) = row(name, megabytes, &speeds(name, &text), smaller);
        smaller.get_or_insert(speed);
        reached &= speed >= GOAL || ratio >= PART;
    }
    reached
}

/// Times every kind of text and prints the table, then the goal.
fn main() {
    let mut random = Random(1);
    head();
    let reached = KINDS.map(|(name, make)| rows(name, make, &mut random));
    let came = match reached.contains(&false) {
        true => "not met",
        false => "met",
    };
    println!("Goal: {GOAL} megabytes in a second, or {PART} of the reader's speed: {came}.");
}
