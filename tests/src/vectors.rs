//! Vector files: on each line n, the table in hexadecimal, and what the program prints for it: the
//! type and the ten bytes, or `R 4` for no match. The answers of those that bench/run times are
//! those of two matchers of different method. Those of `match-small-high.txt` and
//! `match-mixed-high.txt` are one matcher's, and in the first they are checked against exhaustive
//! contents. None of these matchers is the product's or the second matcher here.

use crate::hexadecimal::bytes_of;

/// One line of a vector file.
pub struct Line {
    pub n: u8,
    pub table: Vec<u8>,
    /// What the program prints, without the line feed.
    pub said: String,
    /// The ten bytes of the match, if there is one.
    pub block: Option<[u8; 10]>,
}

/// The line that a text stands for.
fn line_of(text: &str) -> Line {
    let words: Vec<&str> = text.split(' ').collect();
    assert_eq!(words.len(), 4, "not a vector: {text}");
    let block = match words[2..] {
        ["R", "4"] => None,
        _ => Some(bytes_of(words[3]).try_into().expect("ten bytes")),
    };
    Line {
        n: words[0].parse().expect("a number"),
        table: bytes_of(words[1]),
        said: words[2..].join(" "),
        block,
    }
}

/// The names with an ending that files in a folder have.
pub fn files(folder: &str, ending: &str) -> Vec<String> {
    let entries = std::fs::read_dir(folder).unwrap_or_else(|wrong| panic!("{folder}: {wrong}"));
    let names = entries.map(|entry| entry.expect("a name").file_name());
    let names = names.map(|name| name.into_string().expect("a plain name"));
    let mut names: Vec<String> = names.filter(|name| name.ends_with(ending)).collect();
    assert!(!names.is_empty(), "{folder} has no vectors");
    names.sort();
    names
}

/// Every line of a vector file.
pub fn lines(path: &str) -> Vec<Line> {
    let text = std::fs::read_to_string(path).unwrap_or_else(|wrong| panic!("{path}: {wrong}"));
    assert!(!text.is_empty(), "{path} is empty");
    text.lines().map(line_of).collect()
}

/// Every line of every vector file in a folder.
pub fn all(folder: &str) -> Vec<Line> {
    let names = files(folder, ".txt").into_iter();
    names
        .flat_map(|name| lines(&format!("{folder}/{name}")))
        .collect()
}

#[cfg(test)]
mod tests {
    use super::{all, Line};
    use crate::blocks::second::{check, evaluate, type_of, typed};
    use crate::library::Answer;
    use crate::table::table_of;
    use crate::ten::{fields, number, OPEN};

    /// The lines here and those that bench/run times.
    fn every_line() -> Vec<Line> {
        let folder = |name| format!("{}/{name}", env!("CARGO_MANIFEST_DIR"));
        let lines = ["vectors", "../bench"].map(|name| all(&folder(name)));
        lines.into_iter().flatten().collect()
    }

    #[test]
    fn every_match_is_tidy_and_right() {
        for line in every_line() {
            let Line { n, table, said, .. } = line;
            let Some(block) = line.block else { continue };
            assert_eq!(check(n, &block), Answer::success(0), "n {n}: {said}");
            let one = |row| evaluate(n, &block, row as u32) == Answer::success(1);
            assert_eq!(table_of(n as usize, one), table, "n {n}: {said}");
            assert_eq!(type_of(n, &block), typed(&said[..3]), "n {n}: {said}");
        }
    }

    #[test]
    fn only_matches_of_up_to_three_inputs_have_open_pins() {
        for Line { n, said, block, .. } in every_line() {
            let Some(block) = block else { continue };
            let open = fields(number(&block)).contains(&OPEN);
            assert_eq!(open, n < 4, "n {n}: {said}");
        }
    }
}
