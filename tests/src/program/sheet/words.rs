//! Commands whose words are not as they should be, and numbers of every size.

use crate::program::sheet::made::{of_words, Command, Maker, FILE};
use crate::program::sheet::second::LONGEST_WORD;
use crate::sheets::made::{self, Pair};

/// The number pairs of the sheet here, and one that may follow.
const PAIRS: [Pair; 3] = [(1, 0), (7, 11), (7, 12)];
const CRAFT: &str = "7";
const BLOCK: &str = "13";

/// The n and the block of a record, and a cover.
const N: &str = "5";
const TEN: &str = "fFFffFFFf00000000400";
const COVER: &[u8] = b".names SECRET_IN SECRET_OUT\n1 1\n";

/// Words that are no numbers.
const NO_NUMBERS: [&str; 33] = [
    "", " ", "+7", "-7", "-0", "+", "-", " 7", "7 ", "\t7", "7\n", "7\r", "7\t", "7 7", "7,7",
    "7_7", "7.0", "7.", ".7", "7e0", "7a", "a7", "A", "f", "0x7", "0x10", "0X7", "7h", "/7", "7:",
    "\u{FF17}", "\u{663}", "seven",
];

/// Words that are no bytes.
const NO_BYTES: [&str; 19] = [
    "0",
    "0123012340000000040",
    "012301234000000004000",
    "0x012301234000000004",
    "0123012340000000040g",
    "0123012340000000040G",
    "g1230123400000000400",
    "012301234000000004 0",
    " 1230123400000000400",
    "0123012340000000040 ",
    " 01230123400000000400",
    "01 23 01 23 40 00 00 00 04 00",
    "0123012340000000040/",
    "0123012340000000040:",
    "0123012340000000040@",
    "0123012340000000040`",
    "0123012340000000040\n",
    "-1230123400000000400",
    "\u{FF10}123012340000000400",
];

/// Bytes that are not ten: refusal 2.
const NOT_TEN: [&str; 6] = [
    "",
    "00",
    "012301234000000004",
    "0123012340000000040000",
    "0123012340000000040001230123400000000400",
    "FFFFFFFFFFFFFFFFFFFFFFFFFFFFFFFFFFFFFFFFFFFFFFFFFFFFFFFFFFFFFFFF",
];

/// Words of no command, whatever stands there.
const UNKNOWN: [&[&str]; 33] = [
    &[],
    &[""],
    &["check"],
    &["list"],
    &["at"],
    &["find"],
    &["add"],
    &["help"],
    &["--help"],
    &["-h"],
    &[FILE],
    &["", FILE],
    &["Check", FILE],
    &["CHECK", FILE],
    &["check ", FILE],
    &[" check", FILE],
    &["chec", FILE],
    &["checks", FILE],
    &["lis", FILE],
    &["remove", FILE],
    &["check", FILE, ""],
    &["check", FILE, FILE],
    &["list", FILE, "0"],
    &["at", FILE],
    &["at", FILE, "0", "0"],
    &["find", FILE],
    &["find", FILE, CRAFT],
    &["find", FILE, CRAFT, BLOCK, N],
    &["find", FILE, CRAFT, BLOCK, N, TEN],
    &["add", FILE],
    &["add", FILE, CRAFT],
    &["add", FILE, CRAFT, BLOCK, N],
    &["add", FILE, CRAFT, BLOCK, N, TEN, ""],
];

/// Words of which several are wrong: the first of them is told of.
const SEVERAL: [&[&str]; 5] = [
    &["find", FILE, "x", "x"],
    &["add", FILE, "x", "x"],
    &["add", FILE, "x", "x", "x", "x"],
    &["add", FILE, CRAFT, "x", "x", "x"],
    &["add", FILE, CRAFT, BLOCK, "x", "x"],
];

/// What is added to a number that a cut to fewer bits takes away.
const POWERS: [u32; 7] = [4, 8, 12, 16, 32, 64, 120];

/// A command with these words, and a cover on standard input.
fn command(words: &[&str]) -> Command {
    Command {
        text: COVER.to_vec(),
        ..of_words(words.iter().copied())
    }
}

/// The commands that have a number, each with a word in the place of one number, and with this
/// block number.
fn with_number(word: &str, block: &str) -> Vec<Command> {
    let commands: [&[&str]; 8] = [
        &["at", FILE, word],
        &["find", FILE, word, block],
        &["find", FILE, CRAFT, word],
        &["add", FILE, word, block],
        &["add", FILE, CRAFT, word],
        &["add", FILE, word, block, N, TEN],
        &["add", FILE, CRAFT, word, N, TEN],
        &["add", FILE, CRAFT, block, word, TEN],
    ];
    commands.map(command).into()
}

/// Numbers: at the limits, with zeros before them, beyond every limit, and those that become a right
/// one once cut; with as many digits as are taken, and with more.
fn numbers() -> Vec<String> {
    let limits = [0, 1, 2, 9, 10, 15, 255, 256, 4094, 4095, 65535, 4294967295];
    let mut numbers: Vec<u128> = limits.to_vec();
    for power in POWERS {
        numbers.extend([0, 5, 7, 8, 12, 13].map(|low| (1 << power) + low));
    }
    let mut words: Vec<String> = numbers.iter().map(u128::to_string).collect();
    for zeros in [
        1,
        10,
        99,
        4000,
        LONGEST_WORD - 2,
        LONGEST_WORD - 1,
        LONGEST_WORD,
        9999,
    ] {
        let zeros = "0".repeat(zeros);
        words.extend([format!("{zeros}7"), format!("{zeros}13"), zeros]);
    }
    for digits in [20, 40, 100, 2000, LONGEST_WORD / 2] {
        words.extend(["9", "7", "13"].map(|word| word.repeat(digits)));
        words.push(format!("1{}13", "0".repeat(digits)));
    }
    for digits in [LONGEST_WORD - 1, LONGEST_WORD, LONGEST_WORD + 1, 10_000] {
        words.push("9".repeat(digits));
    }
    words
}

/// Many bytes: as many as are taken, and more; the first of them are a block or are not.
fn long_bytes() -> Vec<String> {
    let mut words = vec!["00".repeat(1900)];
    for digits in [
        LONGEST_WORD - 1,
        LONGEST_WORD,
        LONGEST_WORD + 1,
        LONGEST_WORD + 2,
        10_000,
    ] {
        words.extend(["0", "F"].map(|digit| digit.repeat(digits)));
        words.push(format!("{TEN}{}", "0".repeat(digits - TEN.len())));
    }
    words
}

/// Every case about words.
pub fn all(maker: &mut Maker) {
    let sheet = made::sheet_of(&PAIRS, &mut maker.random);
    for word in NO_NUMBERS {
        maker.each(&sheet, &with_number(word, BLOCK));
    }
    for word in numbers() {
        maker.each(&sheet, &with_number(&word, BLOCK));
        maker.each(&sheet, &with_number(&word, "12"));
    }
    let long = long_bytes();
    let long = long.iter().map(String::as_str);
    for ten in NO_BYTES.into_iter().chain(NOT_TEN).chain([TEN]).chain(long) {
        let words = [FILE, CRAFT, BLOCK, N, ten];
        maker.each(&sheet, &[command(&[&["add"], &words[..]].concat())]);
    }
    for words in SEVERAL {
        maker.each(&sheet, &[command(words)]);
    }
    let unknown = "check".repeat(1000);
    for words in UNKNOWN.into_iter().chain([&[&unknown[..], FILE][..]]) {
        maker.each(&sheet, &[command(words)]);
    }
}
