//! The table of times: a row for each group of functions, the matchers side by side.

use crate::bench::matchers::{Matcher, Timed};
use crate::bench::numbers::{median, print_head, print_row, short, worst};

/// The average of some times.
fn average(times: &[f64]) -> f64 {
    times.iter().sum::<f64>() / times.len() as f64
}

/// The cells of matcher k in the row of a group: average, median, worst, worst first call where
/// there are several, and the ratio to the product.
fn cells(matchers: &[Matcher], k: usize, group: &[&Timed]) -> Vec<String> {
    let least = |k: usize| -> Vec<f64> { group.iter().map(|one| one.times[k].least).collect() };
    let times = least(k);
    let mut numbers = vec![average(&times), median(&times), worst(&times)];
    if matchers[k].calls > 1 {
        let first: Vec<f64> = group.iter().map(|one| one.times[k].first).collect();
        numbers.push(worst(&first));
    }
    if k > 0 {
        numbers.push(average(&times) / average(&least(0)));
    }
    numbers.into_iter().map(short).collect()
}

/// Prints the row of a group, if it has any function.
fn row(matchers: &[Matcher], name: &str, group: &[&Timed]) {
    if group.is_empty() {
        return;
    }
    let mut row = vec![format!("{name:24}"), format!("{:9}", group.len())];
    for k in 0..matchers.len() {
        row.extend(cells(matchers, k, group));
    }
    print_row(&row);
}

/// Prints what the table means, and its head.
pub fn head(matchers: &[Matcher]) {
    println!("Microseconds. Under a matcher's name stands its average, under ratio that over the");
    println!("product's. Product and trial: the least of 5 calls of each function; first is the");
    println!("worst first call. Second matcher: one call of each function. Each function is asked");
    println!("of all in turn, and every answer compared with the file's. A group is named by its");
    println!("file and the number of inputs.");
    let mut names = vec![format!("{:24}", "group"), "functions".to_string()];
    for (k, matcher) in matchers.iter().enumerate() {
        let mut columns = vec![matcher.name, "median", "worst"];
        columns.extend((matcher.calls > 1).then_some("first"));
        columns.extend((k > 0).then_some("ratio"));
        names.extend(columns.iter().map(|name| format!("{name:>7}")));
    }
    print_head(&names);
}

/// Prints the rows of one file: all of it, then no match and match for each n.
pub fn rows(matchers: &[Matcher], path: &str, all: &[Timed]) {
    let whole: Vec<&Timed> = all.iter().collect();
    let file = path.rsplit('/').next().unwrap_or(path);
    let stem = file.trim_end_matches(".txt");
    row(matchers, &format!("{stem}, all"), &whole);
    for (fits, what) in [(false, "no match"), (true, "match")] {
        for n in 0..=9 {
            let among = |one: &&Timed| one.n == n && one.fits == fits;
            let group: Vec<&Timed> = all.iter().filter(among).collect();
            row(matchers, &format!("{stem} {n}, {what}"), &group);
        }
    }
}
