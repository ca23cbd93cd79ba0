//! Covers on standard input.

use crate::covers::cases;
use crate::covers::damage::DAMAGES;
use crate::covers::made;
use crate::document::refused_tables;
use crate::program::run::Input;
use crate::program::sheet::made::{add_cover, command, Command, Maker, FILE, NAME};
use crate::program::sheet::questions::cover;
use crate::program::sheet::second::{complaint, Wanted, LONGEST_COVER};
use crate::program::sheet::sentences::{LONG_COVER, NO_COVER};
use crate::random::Random;
use crate::sheets::made::sheet;
use crate::sheets::second::RECORD;
use std::time::Duration;

/// A number pair that may follow every sheet here.
const PAIR: &str = "65535 4095";

/// A cover whose function is its one input.
const PLAIN: &str = ".names SECRET_IN SECRET_OUT\n1 1\n";

/// A text with each refusal before the search.
const REFUSED: [&str; 4] = [
    ".names SECRET_IN SECRET_OUT\n1 1\n.end\n",
    ".names SECRET a b c d e f g h i y\n---------- 1\n",
    ".names SECRET SECRET y\n11 1\n",
    ".names SECRET y\n1 1\n0 0\n",
];

/// How many covers known by hand are refused, how many are made by chance, and how many are damaged
/// in each way.
const KNOWN: usize = 60;
const MADE: usize = 30;
const DAMAGED: usize = 2;

/// How long the pauses are, between pieces and where something might give up.
const SHORT: Duration = Duration::from_millis(1);
const LONG: Duration = Duration::from_millis(60);

/// The cover of Q1, which no block computes.
fn hopeless(random: &mut Random) -> Vec<u8> {
    let [_, (n, table, _), ..] = refused_tables();
    let names = made::names(n as usize + 1, random);
    made::text(&names, &made::rows(n as usize, &table, true))
}

/// Texts: those that are read by hand, some of those that are refused by hand, and texts by chance,
/// right and damaged.
fn texts(random: &mut Random) -> Vec<Vec<u8>> {
    let known = cases::all().into_iter();
    let (read, refused): (Vec<_>, Vec<_>) = known.partition(|(_, outcome)| outcome.is_ok());
    let mut texts: Vec<Vec<u8>> = read.into_iter().map(|(text, _)| text).collect();
    for _ in 0..KNOWN {
        texts.push(refused[random.below(refused.len())].0.clone());
    }
    texts.extend((0..MADE).map(|_| made::cover(random)));
    for damage in DAMAGES.into_iter().flat_map(|damage| [damage; DAMAGED]) {
        let (mut text, other) = (cover(random), cover(random));
        damage(&mut text, &other, random);
        texts.push(text);
    }
    texts.extend(REFUSED.map(|text| text.into()));
    texts.extend([vec![], PLAIN.into(), hopeless(random)]);
    texts
}

/// Every text, added to a small sheet.
fn read(maker: &mut Maker) {
    let sheet = sheet(2, &mut maker.random);
    for text in texts(&mut maker.random) {
        maker.each(&sheet, &[add_cover(PAIR, &text)]);
    }
}

/// Covers that are refused or not, with sheets and numbers that are wrong or not: the cover's refusal
/// comes first.
fn in_order(maker: &mut Maker) {
    let right = sheet(3, &mut maker.random);
    let (mut wrong, cut) = (right.clone(), right[..RECORD + 1].to_vec());
    wrong[RECORD..][..2].fill(0);
    let mut texts: Vec<Vec<u8>> = REFUSED.map(|text| text.into()).into();
    texts.extend([PLAIN.into(), hopeless(&mut maker.random)]);
    for text in texts {
        for sheet in [&right, &wrong, &cut] {
            let pairs = ["0 0", "65536 0", "1 4096", "1 0", PAIR];
            let commands = pairs.map(|pair| add_cover(pair, &text));
            maker.each(sheet, &commands);
        }
    }
}

/// Texts about the longest: what the last byte says counts, and one byte more is too much.
fn lengths(maker: &mut Maker) {
    let sheet = sheet(1, &mut maker.random);
    let longest = LONGEST_COVER;
    for length in [longest - 1, longest, longest + 1, 3 * longest] {
        for last in ["1 1", "0 0", "1 \\"] {
            let mut text = PLAIN.as_bytes().to_vec();
            text.resize(length - last.len(), b'\n');
            text.extend(last.bytes());
            maker.each(&sheet, &[add_cover(PAIR, &text)]);
        }
    }
}

/// Adds a case: a command with this standard input. What is wanted, if it is not given, is what the
/// second version wants of the command's text.
fn given(maker: &mut Maker, command: &Command, input: Input, wanted: Option<Wanted>) {
    let sheet = sheet(2, &mut maker.random);
    let place = maker.place();
    let path = place.put(NAME, &sheet);
    let run = match wanted {
        Some(wanted) => command.run(&path, wanted),
        None => maker.run(command, &path, NAME, &sheet),
    };
    maker.case(place, vec![run.reading(input)]);
}

/// Standard input that comes in pieces, that cannot be read, that breaks off, that never ends; it has
/// no part in adding ten bytes.
fn inputs(maker: &mut Maker) {
    let plain = add_cover(PAIR, PLAIN.as_bytes());
    let bytes = PLAIN.bytes().map(|byte| vec![byte]).collect();
    given(maker, &plain, Input::Pieces(bytes, SHORT), None);
    let (first, last) = PLAIN.as_bytes().split_at(20);
    let halves = vec![first.to_vec(), last.to_vec()];
    given(maker, &plain, Input::Pieces(halves, LONG), None);
    let empty = add_cover(PAIR, b"");
    given(maker, &empty, Input::Path("/dev/null"), None);
    let unread = [
        Input::Path("/"),
        Input::Unreadable,
        Input::Closed,
        Input::Broken(vec![]),
        Input::Broken(PLAIN.into()),
        Input::Broken(REFUSED[0].into()),
    ];
    for input in unread {
        given(maker, &plain, input, Some(complaint(NO_COVER)));
    }
    let long = complaint(LONG_COVER);
    given(maker, &plain, Input::Path("/dev/zero"), Some(long));
    let block = command(&format!("add {FILE} {PAIR} 1 0FFF0FFF000000000400"));
    for input in [Input::Closed, Input::Unreadable, Input::Path("/dev/zero")] {
        given(maker, &block, input, None);
    }
}

/// Every case about covers.
pub fn all(maker: &mut Maker) {
    read(maker);
    in_order(maker);
    lengths(maker);
    inputs(maker);
}
