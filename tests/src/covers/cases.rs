//! Texts of which the outcome follows from the request by hand.

use crate::covers::second::Outcome;
use crate::table::table_of;

/// A text and its outcome.
pub type Case = (Vec<u8>, Outcome);

/// Covers with their n and their table.
const READ: &[(&str, u8, &[u8])] = &[
    (".names y", 0, &[0x00]),
    (".names y\n", 0, &[0x00]),
    (".names y\n1", 0, &[0x80]),
    (".names y\n 1\n", 0, &[0x80]),
    (".names y\n0\n", 0, &[0x00]),
    (".names y\n1\n1\n", 0, &[0x80]),
    (".names y\n0\n0\n", 0, &[0x00]),
    (".names a y", 1, &[0x00]),
    (".names a y\n0 1\n", 1, &[0x80]),
    (".names a y\n1 1\n", 1, &[0x40]),
    (".names a y\n- 1\n", 1, &[0xC0]),
    (".names a y\n0 0\n", 1, &[0x40]),
    (".names a y\n1 0\n", 1, &[0x80]),
    (".names a y\n- 0\n", 1, &[0x00]),
    (".names a y\n1 1\n0 1\n", 1, &[0xC0]),
    (".names a y\n1 0\n0 0\n", 1, &[0x00]),
    (".names a b y\n00 1\n", 2, &[0x80]),
    (".names a b y\n10 1\n", 2, &[0x40]),
    (".names a b y\n01 1\n", 2, &[0x20]),
    (".names a b y\n11 1\n", 2, &[0x10]),
    (".names a b y\n10 0\n", 2, &[0xB0]),
    (".names a b y\n1- 1\n", 2, &[0x50]),
    (".names a b y\n-1 1\n", 2, &[0x30]),
    (".names a b y\n1- 1\n-1 1\n", 2, &[0x70]),
    (".names a b y\n1- 0\n-1 0\n", 2, &[0x80]),
    (".names a b c y\n1-- 1\n", 3, &[0x55]),
    (".names a b c y\n-1- 1\n", 3, &[0x33]),
    (".names a b c y\n--1 1\n", 3, &[0x0F]),
    (".names a b c y\n100 1\n", 3, &[0x40]),
    (".names a b c y\n001 1\n", 3, &[0x08]),
    (".names a b c d y\n", 4, &[0, 0]),
    (".names a b c d y\n---1 1\n", 4, &[0, 0xFF]),
    (".names a b c d y\n0111 1\n", 4, &[0, 0x02]),
    (".names a b c d y\n0--- 0\n", 4, &[0x55, 0x55]),
    (".names a b c d e y\n----1 1\n", 5, &[0, 0, 0xFF, 0xFF]),
    (".names a b c d e y\n---01 1\n", 5, &[0, 0, 0xFF, 0]),
    (".names a b c d e y\n----1 0\n", 5, &[0xFF, 0xFF, 0, 0]),
    (".names a#1 b y\n", 0, &[0x00]),
    (".names a#1 b y\n1\n", 0, &[0x80]),
    (".names .names\n", 0, &[0x00]),
    (".names -- 01\n- 1", 1, &[0xC0]),
    (".names a y\n1 1\n #\r", 1, &[0x40]),
];

/// Texts that say the same: the identity, n 1 and table 40.
const IDENTITY: &[&str] = &[
    ".names a y\n1 1",
    ".names a y\n1 1\n",
    ".names a y\n0 0",
    ".names a y\n1 1\n1 1\n1 1",
    ".names a y\r\n1 1\r\n",
    ".names a y\n1 1\r\n",
    ".names a y\r\n1 1",
    "\r\n\r\n.names a y\r\n\r\n1 1\r\n\r\n",
    "\n\n.names a y\n\n\n1 1\n\n",
    " .names a y\n 1 1",
    "\t.names\ta\ty\t\n\t1\t1\t",
    ".names \t a\t  y  \n  1 \t 1  ",
    " \t \n.names a y\n\t\n1 1\n \t",
    "# .end\n.names a y # b\n#\n1 1 # 0\n#",
    "#\n.names a y#b\n1 1#0\n##",
    "#.names b y\n.names a y\n#1 0\n1 1",
    ".names a y #\\\n1 1 # \\\n",
    "# \\\n.names a y\n1 1\n#\\",
    "#\r.names\n.names a y#\rb\n1 1#\r0\n",
    "#\r\r\n.names a y#\r\r\n1 1#\r\r\n",
    ".names a y\n1 1#\r",
    ".names a y\n1 1\n#\r",
    ".names .names y\n1 1",
    ".names y .names\n1 1",
    ".names .end .model\n1 1",
    ".names 1 0\n1 1",
    ".names - 1\n1 1",
    ".names a a1\n1 1",
    ".names a1 a\n1 1",
    ".names EN En\n1 1",
    ".names ! ~\n1 1",
    ".names \"$%&'()*+,-./ :;<=>?@[]^_`{|}\n1 1",
];

/// Texts without a head, with another line before it, or with one that ends in a comment and lines that
/// do not fit it; `|` stands between them.
const NO_HEAD: &str =
    "| |\t|\n|\r\n| \n\t\r\n|#|# .names a y\n|\r|\\|1 1|a|.names|.names\n|.names \t\n|\
    .names #y|.names# a y|.names\n1|.names\ny|names a y\n1 1|.name a y\n1 1|.namesa y\n1 1|\
    .names. a y\n1 1|.NAMES a y\n1 1|a .names y\n1 1|1 1\n.names a y|.end\n.names a y|y\n.names y|\
    .model m\n.names a y\n1 1|.inputs a\n.names a y\n1 1|\u{FEFF}.names a y\n1 1|.names y#\\\n1\\#\n|\
    .names a#1 b y\n11 1|.names a b a#c\n1";

/// Texts with a CR that ends no line and is in no comment.
const LONE_CR: &str = ".names a y\r1 1\r|.names a y\r1 1\n|.names a y\n1 1\r|.names a y\n1 1\n\r|\
    .names a y\r\r\n1 1\r\n|.names a y\r\n1 1\r\r\n|.names a y\n\r\r\n1 1|\r.names a y|.names y\r|\
    .names a y\n\r1 1|.names a y\n1\r 1|.names a y\n1 1\r#|.names a y\n1 1\r \n|.names y\n1\r|\
    .names y\n\r1|.names\r\r\n|\r\r\n.names y|.names\ra y\n1 1|.names a\ry\n1|.names a \r y\n-- 1|\
    .names a y\n1 1\n \r";

/// Texts with a backslash in no comment.
const BACKSLASH: &str = ".names a \\\n y\n1 1|.names a \\\r\n y\n1 1|.names a y \\\n\n1 1|\\\n.names y|\
    .names a y\\\n\n1 1|.names \\\na y\n1 1|.names a\\b y\n1 1|.names \\ y\n1 1|.names a y\n1 \\\n1|\
    .names a y\n1 1\\|.names a y\n1 1\\\n|.names a y\n1 1 \\|.names a y\n\\\n1 1|.names a y\n1 1\n\\|\
    .names a y\n1 1\n\\#|.names y\n\\|.names \\|.names a y\n1\\ 1|.names y \\|.names y\\";

/// What is no line of any cover, whatever its inputs.
const NO_LINE: &str = ".end|.end\n|.model m|.names b z\n1 1|.names z|.names|.exdc|.latch a b|.|1 1 .end|x|\
    - - -|0 0 0|1 1 1|1 1 0|2|2 1|1 2|11 2|x 1|1 x|/ 1|. 1|+ 1|, 1|1 -|11 -|1 01|1 10|11 00|1 11|a y|\
    1 +1|1 1.|11 1.|1 -1|-|--|---|\x1A|\0";

/// Heads, each with a line that is right and with lines that are not for so many inputs.
const WRONG_LINES: [(&str, &str, &str); 3] = [
    (".names y\n", "1", "1 1|- 1|0 0|01|10|11|-1|1-|1\t1"),
    (
        ".names a y\n",
        "1 1",
        "1|0|11|-1|-0|1 #1|1# 1|1\t1\t1|11 1|-- 1|111 1|#\n1",
    ),
    (
        ".names a b y\n",
        "11 1",
        "1|11|111|1 1|- 1|1 1 1|1 1\n1|111 1|--- 0|11 1 1|11\n1",
    ),
];

/// Covers with a name that is used twice.
const REPEATED: &[&str] = &[
    ".names a a",
    ".names a a\n1 1\n",
    ".names a a y\n11 1",
    ".names a b a",
    ".names b a a",
    ".names a b a y\n",
    ".names a b b y\n",
    ".names EN x EN y\n111 1",
    ".names .names .names",
    ".names 1 1\n1 1",
    ".names a a\n1 1\n0 0",
    ".names a b a\n-- 0\n-- 1\n",
    ".names y y#\n1 1\n0 0\n",
];

/// Covers with lines of both outputs and no name twice.
const BOTH: &[&str] = &[
    ".names y\n1\n0",
    ".names y\n0\n1",
    ".names y\n0\n0\n1\n0",
    ".names a y\n1 1\n0 0",
    ".names a y\n0 0\n1 1",
    ".names a y\n- 0\n- 1",
    ".names a b y\n11 1\n11 1\n00 0\n11 1",
];

/// A head of inputs a, b, c and so on, and the output y; then lines.
fn lettered(inputs: u8, lines: &str) -> Vec<u8> {
    let letters = (b'a'..b'a' + inputs).chain([b'y']);
    let words = letters.flat_map(|letter| [b' ', letter]);
    let head = b".names".iter().copied().chain(words);
    head.chain(*b"\n").chain(lines.bytes()).collect()
}

/// The same, with one name that stands at another place too.
fn repeated(inputs: u8, [place, again]: [usize; 2], lines: &str) -> Vec<u8> {
    let mut text = lettered(inputs, lines);
    let letter = |place: usize| b".names ".len() + 2 * place;
    text[letter(again)] = text[letter(place)];
    text
}

/// Heads with a wrong line: alone, after a right one and before it.
fn wrong_lines() -> Vec<Case> {
    let mut cases = vec![];
    for (head, right, wrong) in WRONG_LINES {
        for line in wrong.split('|').chain(NO_LINE.split('|')) {
            let after = format!("{head}{right}\n{line}");
            let before = format!("{head}{line}\n{right}\n");
            let texts = [[head, line].concat(), after, before];
            cases.extend(texts.map(|text| (text.into(), Err(15))));
        }
    }
    cases
}

/// Ten inputs, the last with this byte for its name, and a line.
fn marked(byte: u8) -> Vec<u8> {
    let mut text = lettered(10, "---------- 1");
    text[b".names ".len() + 2 * 9] = byte;
    text
}

/// Ten inputs: a wrong line anywhere is 15, and whatever is wrong besides is 1.
fn ten() -> Vec<Case> {
    let (right, short) = ("---------- 1\n", "--------- 1\n");
    let both = "---------- 0\n0101010101 1\n";
    let joined = |lines: [&str; 2]| lettered(10, &lines.concat());
    vec![
        (lettered(10, ""), Err(1)),
        (lettered(10, right), Err(1)),
        (lettered(10, both), Err(1)),
        (repeated(10, [1, 2], right), Err(1)),
        (repeated(10, [0, 10], both), Err(1)),
        (lettered(10, short), Err(15)),
        (joined([right, short]), Err(15)),
        (joined([short, right]), Err(15)),
        (joined([right, "---------- -"]), Err(15)),
        (joined([both, ".end"]), Err(15)),
        (repeated(10, [3, 4], short), Err(15)),
        (joined([right, "---------- 1\r"]), Err(15)),
        (joined([right, "---------- 1 #\r"]), Err(1)),
        (joined([both, "# --------- 1"]), Err(1)),
        (marked(b'\\'), Err(15)),
        (marked(0x80), Err(15)),
        (marked(b'%'), Err(1)),
    ]
}

/// Nine inputs: without a line, and each variable by itself.
fn nine() -> Vec<Case> {
    let mut cases = vec![(lettered(9, ""), Ok((9, vec![0; 64])))];
    for variable in 0..9 {
        let mark = |place| if place == variable { '1' } else { '-' };
        let marks: String = (0..9).map(mark).collect();
        let table = table_of(9, |row| row >> variable & 1 == 1);
        cases.push((lettered(9, &format!("{marks} 1")), Ok((9, table))));
    }
    cases
}

/// Up to nine inputs and the output, any two of them with one name; the last with both outputs too.
fn pairs() -> Vec<Case> {
    let mut cases = vec![];
    for again in 1..10 {
        for place in 0..again {
            for inputs in again..10 {
                let places = [place, again];
                cases.push((repeated(inputs as u8, places, ""), Err(16)));
            }
            let both = "--------- 1\n--------- 0";
            cases.push((repeated(9, [place, again], both), Err(16)));
        }
    }
    cases
}

/// Every text with its outcome.
pub fn all() -> Vec<Case> {
    let case = |text: &str, outcome: Outcome| (text.into(), outcome);
    let read = READ.iter();
    let mut cases: Vec<Case> = read
        .map(|(text, n, table)| case(text, Ok((*n, table.to_vec()))))
        .collect();
    cases.extend(IDENTITY.iter().map(|text| case(text, Ok((1, vec![0x40])))));
    for texts in [NO_HEAD, LONE_CR, BACKSLASH] {
        cases.extend(texts.split('|').map(|text| case(text, Err(15))));
    }
    cases.extend(REPEATED.iter().map(|text| case(text, Err(16))));
    cases.extend(BOTH.iter().map(|text| case(text, Err(17))));
    cases.extend(wrong_lines());
    cases.extend(ten());
    cases.extend(nine());
    cases.extend(pairs());
    cases
}

#[cfg(test)]
mod tests {
    use super::all;
    use crate::covers::{places, second::read};

    #[test]
    fn the_second_reader_agrees() {
        for (text, outcome) in all().into_iter().chain(places::all()) {
            assert_eq!(read(&text), outcome, "{}", text.escape_ascii());
        }
    }
}
