//! Times the product's calls for sheets side by side with the second reader and writer.
//!
//! usage: bench_sheet
//!
//! The sheets are right ones, made from a fixed seed. Each question is asked of both in turn, many
//! times. The two answers are compared each time; a difference ends the run with status 1.

use edges::bench::numbers::{median, print_head, print_row, short, worst};
use edges::bench::sample::{Question, Sample};
use edges::lent::said;
use edges::random::Random;
use edges::sheets::second::MOST;

/// How many records the sheets have. Of small sheets there are many, about as many records in all
/// as in the largest, so that a processor cannot learn them by heart.
const COUNTS: [usize; 3] = [100, 1000, MOST];

/// How many times each question is asked of both about each sheet.
const ROUNDS: usize = 101;

/// The goal for the largest sheet, in microseconds.
const GOAL: f64 = 2000.0;

/// The questions and their names.
const QUESTIONS: [(&str, Question); 6] = [
    ("check", Question::Check),
    ("find, first pair", Question::FindFirst),
    ("find, last pair", Question::FindLast),
    ("find, absent pair", Question::FindAbsent),
    ("read, last place", Question::ReadLast),
    ("append", Question::Append),
];

/// The times of a question on sheets of one count, in microseconds.
#[derive(Clone, Default)]
struct Times {
    product: Vec<f64>,
    second: Vec<f64>,
}

/// Asks both about a sheet; answers that differ end the run.
fn ask(name: &str, sample: &mut Sample, question: Question, times: &mut Times) {
    let (here, product) = sample.product(question);
    let (there, second) = sample.second(question);
    if here != there {
        println!("differ: {name}, {} records", sample.records(question));
        println!("  the product {}, the second {}", said(here), said(there));
        std::process::exit(1);
    }
    times.product.push(product);
    times.second.push(second);
}

/// The times of a question for each count: in each round all sheets of a count, then those of the
/// next.
fn timed(name: &str, counts: &mut [Vec<Sample>], question: Question) -> Vec<Times> {
    let mut all = vec![Times::default(); counts.len()];
    for _ in 0..ROUNDS {
        for (sheets, times) in counts.iter_mut().zip(&mut all) {
            for sample in sheets {
                ask(name, sample, question, times);
            }
        }
    }
    all
}

/// Prints what the table means, and its head.
fn head() {
    println!("Sheets. Microseconds: under product and second the median of all calls, {ROUNDS}");
    println!("for each sheet; least is the product's least, ratio the second over the product.");
    println!("Under a record stand the product's nanoseconds for each record, under growth these");
    println!("over those of the first row, about 1 if time grows as the sheet does. Each question");
    println!("is asked of both in turn, and the answers compared.");
    let mut names = vec![format!("{:17}", "question"), "records".to_string()];
    let columns = ["product", "least", "a record", "growth", "second", "ratio"];
    names.extend(columns.map(|name| format!("{name:>8}")));
    print_head(&names);
}

/// The numbers of a row: the product's median and least time, its time for each record and how this
/// grew over that of the first row, if there was one; the second's median, and the ratio.
fn cells(times: &Times, records: usize, first: Option<f64>) -> [f64; 6] {
    let (product, second) = (median(&times.product), median(&times.second));
    let least = times.product.iter().copied().fold(f64::INFINITY, f64::min);
    let each = product * 1000.0 / records as f64;
    let growth = each / first.unwrap_or(each);
    [product, least, each, growth, second, second / product]
}

/// Times a question and prints a row for each count; the product's median on the largest sheets.
fn rows(name: &str, counts: &mut [Vec<Sample>], question: Question) -> f64 {
    let (mut first, mut largest) = (None, 0.0);
    let all = timed(name, counts, question);
    for (sheets, times) in counts.iter().zip(&all) {
        let records = sheets[0].records(question);
        let cells = cells(times, records, first);
        let mut row = vec![format!("{name:17}"), format!("{records:7}")];
        row.extend(cells.map(|number| format!("{:>8}", short(number))));
        print_row(&row);
        first.get_or_insert(cells[2]);
        largest = cells[0];
    }
    largest
}

/// The sheets of one count.
fn sheets(count: usize, random: &mut Random) -> Vec<Sample> {
    let samples = (0..MOST / count).map(|_| Sample::new(count, random));
    samples.collect()
}

/// Times every question and prints the table, then the goal.
fn main() {
    let mut random = Random(1);
    let mut counts = COUNTS.map(|count| sheets(count, &mut random));
    head();
    let largest = QUESTIONS.map(|(name, question)| rows(name, &mut counts, question));
    let slowest = worst(&largest);
    let came = if slowest < GOAL { "met" } else { "not met" };
    println!("Goal: {MOST} records in under {GOAL} microseconds, whatever is asked. The slowest");
    println!("median on the largest sheets is {slowest:.0}: {came}.");
}
