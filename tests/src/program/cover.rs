//! What the program for covers is given, and what it must print. Names of signals and of files that
//! are made here have `SECRET` in them, and nothing that is wanted has.

use crate::covers::vectors::{Stock, Vector};
use crate::program::judge::{read, Case};
use crate::program::run::{left, line_of, whole, Input, Left, Output};
use std::fs;
use std::time::Duration;

/// What is said on standard error where there is no line, or where it cannot be written.
const NOT_READ: &str = "cover: the text could not be read\n";
const TOO_LONG: &str = "cover: the text is longer than 1,048,576 bytes\n";
const NOT_OPENED: &str = "cover: the file could not be opened\n";
const TOO_MANY: &str = "cover: give no argument, or one, the name of a file\n";
const NOT_WRITTEN: &str = "cover: standard output could not be written\n";

/// The length of the longest text, and of the longest name of a file.
const LONGEST: usize = 1 << 20;
const LONGEST_NAME: usize = 4095;

/// How long the pauses are, between pieces and where something might give up.
const SHORT: Duration = Duration::from_millis(1);
const LONG: Duration = Duration::from_millis(60);

/// A cover whose function is its one input, and the line of document 01 for it.
const PLAIN: &str = ".names SECRET_IN SECRET_OUT\n1 1\n";
const PLAIN_LINE: &str = "C-0 0FFF0FFF000000000400";

/// Other texts that say the same.
const SAME: &[&str] = &[
    ".names SECRET_IN SECRET_OUT\n1 1",
    ".names SECRET_IN SECRET_OUT\r\n0 0\r\n",
    "\n# SECRET \\\n\t.names\tSECRET_IN SECRET_OUT # SECRET\n\n 1 \t1 #\n1 1\n \n",
];

/// Texts with their refusals.
const REFUSED: &[(&str, &str)] = &[
    ("", "R 15"),
    ("# SECRET\n", "R 15"),
    (".names\n", "R 15"),
    (".names SECRET_IN SECRET_OUT \\\n1 1\n", "R 15"),
    (".names SECRET_IN SECRET_OUT\n1 1\n.end\n", "R 15"),
    (
        ".names SECRET a b c d e f g h i y\n---------- 1\n--------- 1",
        "R 15",
    ),
    (".names SECRET a b c d e f g h i y\n---------- 1\n", "R 1"),
    (
        ".names SECRET SECRET b c d e f g h i y\n---------- 1\n",
        "R 1",
    ),
    (".names SECRET SECRET y\n11 1\n00 0\n", "R 16"),
    (".names SECRET a SECRET\n11 1\n", "R 16"),
    (".names SECRET y\n1 1\n0 0\n", "R 17"),
];

/// What is said on standard error of a refusal with this number.
fn meaning(number: &str) -> String {
    let meaning = match number {
        "1" => "the part has more than nine inputs",
        "4" => "no single block computes the function",
        "15" => "the text is not one .names part (docs/COVERS.md says what is)",
        "16" => "a name is used twice, the output's included",
        "17" => "there are lines with output 1 and lines with output 0",
        _ => panic!("no cover is refused with {number}"),
    };
    format!("cover: {number} means that {meaning}\n")
}

/// What is said on standard error beside this line.
fn beside(line: &str) -> String {
    line.strip_prefix("R ").map(meaning).unwrap_or_default()
}

/// What a run must leave that answers with this line, given without its line feed.
fn answered(line: &str) -> Left {
    left(&format!("{line}\n"), &beside(line))
}

/// A run with these arguments, and nothing on standard input, that must leave this.
fn named(words: &[&str], wanted: Left) -> Case {
    Case {
        words: words.iter().map(|word| word.to_string()).collect(),
        ..read(Input::Pieces(vec![], Duration::ZERO), wanted)
    }
}

/// The text in a file, from standard input and by name.
fn both(path: &str, wanted: fn(&str) -> Left, said: &str) -> [Case; 2] {
    let text = fs::read(path).unwrap_or_else(|wrong| panic!("{path}: {wrong}"));
    [
        read(whole(&text), wanted(said)),
        named(&[path], wanted(said)),
    ]
}

/// The vectors: covers, and texts with a line that is continued.
fn vectors(drawmitten: &str, folder: &str) -> Vec<Case> {
    let stock = Stock::below(folder);
    let mut cases = vec![];
    for Vector { name, n, table, .. } in &stock.covers {
        let line = line_of(drawmitten, *n, table);
        cases.extend(both(
            &format!("{folder}/covers/{name}.names"),
            answered,
            &line,
        ));
    }
    for Vector { name, .. } in &stock.continued {
        let path = format!("{folder}/covers-continued/{name}.names");
        cases.extend(both(&path, answered, "R 15"));
    }
    cases
}

/// A file that is made, with this text; its path.
fn made(folder: &str, number: usize, text: &[u8]) -> String {
    let path = format!("{folder}/SECRET-{number}.names");
    fs::write(&path, text).unwrap_or_else(|wrong| panic!("{path}: {wrong}"));
    path
}

/// Texts with their lines, the constants of no inputs among them.
fn texts(drawmitten: &str) -> Vec<(&'static str, String)> {
    let constant = |text, table| (text, line_of(drawmitten, 0, &[table]));
    let mut texts = vec![
        (PLAIN, PLAIN_LINE.to_string()),
        constant(".names SECRET", 0),
        constant(".names SECRET\n1", 0x80),
        constant(".names SECRET\n0\n", 0),
    ];
    texts.extend(SAME.iter().map(|text| (*text, PLAIN_LINE.to_string())));
    texts.extend(REFUSED.iter().map(|(text, line)| (*text, line.to_string())));
    texts
}

/// The text of one input with so many bytes, which ends in the last lines: those before it say what
/// they say, or are a comment.
fn filled(length: usize, fill: &[u8], last: &str) -> Vec<u8> {
    let mut text = PLAIN.as_bytes().to_vec();
    let room = length - text.len() - last.len();
    text.extend(fill.iter().cycle().take(room));
    text.extend(last.bytes());
    text
}

/// Texts about the longest: what the last byte says counts, and one byte more is too much. Each
/// from standard input, in one piece and in many, and by name.
fn lengths(folder: &str) -> Vec<Case> {
    let mut cases = vec![];
    let mut add = |number, text: Vec<u8>, wanted: fn(&str) -> Left, said: &str| {
        let pieces = text.chunks(65_521).map(<[u8]>::to_vec).collect();
        cases.push(read(Input::Pieces(pieces, SHORT), wanted(said)));
        cases.extend(both(&made(folder, number, &text), wanted, said));
    };
    let refused: fn(&str) -> Left = |sentence| left("", sentence);
    for (k, length) in [LONGEST - 1, LONGEST].into_iter().enumerate() {
        let number = 100 + 10 * k;
        add(number, filled(length, b"\n", "1 1"), answered, PLAIN_LINE);
        add(number + 1, filled(length, b"#x", "\n0 0"), answered, "R 17");
        add(
            number + 2,
            filled(length, b"1 1\n", "\n1 \\"),
            answered,
            "R 15",
        );
        add(number + 3, vec![b'#'; length], answered, "R 15");
    }
    for (k, length) in [LONGEST + 1, 3 * LONGEST].into_iter().enumerate() {
        let number = 200 + 10 * k;
        add(number, filled(length, b"\n", "1 1"), refused, TOO_LONG);
        add(number + 1, filled(length, b"1 1\n", ""), refused, TOO_LONG);
        add(number + 2, vec![0; length], refused, TOO_LONG);
    }
    cases
}

/// Texts in pieces: byte by byte, and with a last line that comes late.
fn in_pieces() -> Vec<Case> {
    let bytes = PLAIN.bytes().map(|byte| vec![byte]).collect();
    let late = |last: &str| vec![PLAIN.as_bytes().to_vec(), last.as_bytes().to_vec()];
    vec![
        read(Input::Pieces(bytes, SHORT), answered(PLAIN_LINE)),
        read(Input::Pieces(late("1 1"), LONG), answered(PLAIN_LINE)),
        read(Input::Pieces(late("0 0"), LONG), answered("R 17")),
        read(Input::Pieces(late("0"), LONG), answered("R 15")),
    ]
}

/// A path with so many bytes that names the same, by dots before its last part.
pub fn padded(path: &str, length: usize) -> String {
    let (before, file) = path.rsplit_once('/').expect("a path with a folder");
    let dots = "/.".repeat(length / 2);
    let room = length - before.len() - file.len() - 1;
    let slash = if room % 2 == 1 { "/" } else { "" };
    format!("{before}{}{slash}/{file}", &dots[..room - room % 2])
}

/// Names of files: the longest, one too long that begins with it, and others that open nothing.
fn names(folder: &str) -> Vec<Case> {
    let path = made(folder, 300, PLAIN.as_bytes());
    let opens = |name: &str| named(&[name], answered(PLAIN_LINE));
    let fails = |name: &str| named(&[name], left("", NOT_OPENED));
    let [longest, longer] = [LONGEST_NAME, LONGEST_NAME + 1].map(|length| padded(&path, length));
    assert_eq!([longest.len(), longer.len()], [4095, 4096]);
    vec![
        opens(&path),
        opens(&longest),
        fails(&longer),
        fails(&format!("{longest}/")),
        fails(&format!("{longest}/SECRET")),
        fails(&"SECRET".repeat(1000)),
        fails(&format!("{path}/")),
        fails(&format!("{folder}/SECRET")),
        fails(""),
    ]
}

/// Input that never ends, that cannot be read, and that breaks off; too many arguments.
fn failures(path: &str) -> Vec<Case> {
    let unread = |input| read(input, left("", NOT_READ));
    let many = |words: &[&str]| named(words, left("", TOO_MANY));
    let closed = Case {
        input: Input::Closed,
        ..named(&[path], answered(PLAIN_LINE))
    };
    vec![
        closed,
        read(Input::Path("/dev/zero"), left("", TOO_LONG)),
        named(&["/dev/zero"], left("", TOO_LONG)),
        read(Input::Path("/dev/null"), answered("R 15")),
        named(&["/dev/null"], answered("R 15")),
        unread(Input::Path("/")),
        named(&["/"], left("", NOT_READ)),
        unread(Input::Unreadable),
        unread(Input::Closed),
        unread(Input::Broken(vec![])),
        unread(Input::Broken(PLAIN.into())),
        many(&[path, path]),
        many(&["", ""]),
        many(&[path, "", "SECRET"]),
    ]
}

/// Output that cannot be written: what a refusal means is said all the same.
fn unwritten(folder: &str) -> Vec<Case> {
    let mut cases = vec![];
    for (number, text, line) in [(400, PLAIN, PLAIN_LINE), (401, "", "R 15")] {
        let path = made(folder, number, text.as_bytes());
        let errors = format!("{NOT_WRITTEN}{}", beside(line));
        let wanted: fn(&str) -> Left = |errors| left("", errors);
        for output in [Output::Full, Output::Closed] {
            let to = |case| Case {
                output: output.clone(),
                ..case
            };
            cases.extend(both(&path, wanted, &errors).map(to));
        }
        cases.push(Case {
            input: Input::Closed,
            output: Output::Closed,
            ..named(&[&path], left("", &errors))
        });
    }
    let nothing = read(Input::Closed, left("", NOT_READ));
    cases.push(Case {
        output: Output::Closed,
        ..nothing
    });
    cases
}

/// Every case: the vectors, texts with each refusal, the longest texts, and faults of reading and of
/// writing. Files are made in the last folder.
pub fn all(drawmitten: &str, vectors_folder: &str, folder: &str) -> Vec<Case> {
    let mut cases = vectors(drawmitten, vectors_folder);
    for (number, (text, line)) in texts(drawmitten).into_iter().enumerate() {
        let path = made(folder, number, text.as_bytes());
        cases.extend(both(&path, answered, &line));
    }
    cases.extend(lengths(folder));
    cases.extend(in_pieces());
    cases.extend(names(folder));
    cases.extend(failures(&made(folder, 500, PLAIN.as_bytes())));
    cases.extend(unwritten(folder));
    cases
}
