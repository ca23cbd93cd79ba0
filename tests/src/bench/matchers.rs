//! The matchers that are timed, and how a function is asked of each.

use crate::hexadecimal::hexadecimal;
use crate::library::{match_entry, match_table, Answer};
use crate::matching::second::Second;
use crate::vectors::Line;
use std::time::Instant;

#[cfg(feature = "trial")]
extern "C" {
    /// The trial's entry: 0 or the refusal's number, with ten bytes of room.
    fn quick_match(n: u8, table: *const u8, table_len: usize, out: *mut u8) -> u8;
}

/// The answer of a match, and that of none.
const MATCHED: Answer = Answer::success(10);
const NO_MATCH: Answer = Answer::refusal(4);

/// The ten bytes of a match, or the answer that says otherwise.
type Found = Result<[u8; 10], Answer>;

/// A matcher to be timed.
pub struct Matcher<'a> {
    pub name: &'static str,
    /// How many times each function is asked of it.
    pub calls: usize,
    find: Box<dyn Fn(u8, &[u8]) -> Found + 'a>,
}

/// The times of one matcher on one function, in microseconds.
pub struct Times {
    pub first: f64,
    pub least: f64,
}

/// A function with the times of each matcher on it.
pub struct Timed {
    pub n: u8,
    pub fits: bool,
    pub times: Vec<Times>,
}

/// The product's answer.
fn ask_product(n: u8, table: &[u8]) -> Found {
    let mut out = [0; 10];
    match match_table(n, table, &mut out) {
        MATCHED => Ok(out),
        other => Err(other),
    }
}

/// The trial's answer.
#[cfg(feature = "trial")]
fn ask_trial(n: u8, table: &[u8]) -> Found {
    let mut out = [0; 10];
    match unsafe { quick_match(n, table.as_ptr(), table.len(), out.as_mut_ptr()) } {
        0 => Ok(out),
        number => Err(Answer::refusal(number)),
    }
}

/// A matcher with its name and number of calls.
fn matcher<'a>(
    name: &'static str,
    calls: usize,
    find: impl Fn(u8, &[u8]) -> Found + 'a,
) -> Matcher<'a> {
    let find = Box::new(find);
    Matcher { name, calls, find }
}

/// The matchers, the product first.
pub fn all(second: &Second) -> Vec<Matcher<'_>> {
    let ask_second = |n: u8, table: &[u8]| second.find(n as usize, table).ok_or(NO_MATCH);
    vec![
        matcher("product", 5, ask_product),
        matcher("second", 1, ask_second),
        #[cfg(feature = "trial")]
        matcher("trial", 5, ask_trial),
    ]
}

/// One call, in microseconds; an answer that is not the line's ends the run.
fn time(matcher: &Matcher, line: &Line) -> f64 {
    let start = Instant::now();
    let answer = (matcher.find)(line.n, &line.table);
    let took = start.elapsed().as_secs_f64() * 1e6;
    let wanted = line.block.ok_or(NO_MATCH);
    if answer != wanted {
        println!("differ: n {}, table {}", line.n, hexadecimal(&line.table));
        println!("  {}: {answer:02X?}, the file: {wanted:02X?}", matcher.name);
        std::process::exit(1);
    }
    took
}

/// Asks one function of every matcher in turn, round by round.
pub fn timed(matchers: &[Matcher], line: &Line) -> Timed {
    let first = matchers.iter().map(|matcher| time(matcher, line));
    let both = |first| Times {
        first,
        least: first,
    };
    let mut times: Vec<Times> = first.map(both).collect();
    for round in 1..5 {
        for (matcher, times) in matchers.iter().zip(&mut times) {
            if round < matcher.calls {
                times.least = times.least.min(time(matcher, line));
            }
        }
    }
    let fits = line.block.is_some();
    Timed {
        n: line.n,
        fits,
        times,
    }
}

/// Where the code of each matcher behind an entry for C begins.
pub fn entries() -> Vec<(&'static str, usize)> {
    vec![
        ("product", match_entry()),
        #[cfg(feature = "trial")]
        ("trial", quick_match as *const () as usize),
    ]
}
