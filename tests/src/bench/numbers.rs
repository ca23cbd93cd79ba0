//! Times in a table: the middle one of some, the greatest, and rows of cells.

/// The middle one of some times, the lower of two.
pub fn median(times: &[f64]) -> f64 {
    let mut sorted = times.to_vec();
    sorted.sort_by(f64::total_cmp);
    sorted[(sorted.len() - 1) / 2]
}

/// The greatest of some times.
pub fn worst(times: &[f64]) -> f64 {
    times.iter().copied().fold(0.0, f64::max)
}

/// A number in few digits.
pub fn short(number: f64) -> String {
    let digits = if number < 1000.0 { 1 } else { 0 };
    format!("{number:7.digits$}")
}

/// Prints a row of cells.
pub fn print_row(cells: &[String]) {
    println!("| {} |", cells.join(" | "));
}

/// Prints the head of a table, and the rule under it.
pub fn print_head(names: &[String]) {
    print_row(names);
    let rules: Vec<String> = names.iter().map(|name| "-".repeat(name.len())).collect();
    print_row(&rules);
}
