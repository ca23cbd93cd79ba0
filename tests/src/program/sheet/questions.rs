//! Commands about sheets, right and damaged.

use crate::blemish::put_field;
use crate::covers::made::{names, rows, text};
use crate::document::refused_blocks;
use crate::hexadecimal::hexadecimal;
use crate::library::Answer;
use crate::program::sheet::made::{add_cover, command, Command, Maker, FILE};
use crate::random::Random;
use crate::sheets::damage::DAMAGES;
use crate::sheets::made::{self, Pair};
use crate::sheets::questions::{self, offer};
use crate::sheets::second::{Sheet, MOST, RECORD};
use crate::sheets::watched::{Offer, Question};
use crate::table::table_of;

/// How many records the right sheets have that every question is asked about.
const COUNTS: [usize; 9] = [0, 1, 2, 3, 9, 40, 1001, MOST - 1, MOST];

/// How many records the sheets have that are damaged.
const DAMAGED: [usize; 4] = [1, 2, 7, MOST];

/// How many records are added in a row.
const ADDED: usize = 40;

/// The refusals of a record in a sheet.
const NUMBERS: [u8; 7] = [10, 11, 1, 6, 7, 8, 9];

/// A number as a word, now and then with zeros before it.
fn spelled(number: impl ToString, random: &mut Random) -> String {
    let zeros = random.one(&[0, 0, 0, 0, 0, 1, 5, 100]);
    format!("{}{}", "0".repeat(zeros), number.to_string())
}

/// Bytes as a word, in hexadecimal digits of either kind.
fn spelled_bytes(bytes: &[u8], random: &mut Random) -> String {
    let digits = hexadecimal(bytes);
    match random.below(3) {
        0 => digits,
        1 => digits.to_lowercase(),
        _ => digits
            .chars()
            .map(|digit| random.one(&[digit, digit.to_ascii_lowercase()]))
            .collect(),
    }
}

/// Two numbers as words.
fn spelled_pair((craft, block): Pair, random: &mut Random) -> String {
    format!("{} {}", spelled(craft, random), spelled(block, random))
}

/// The command that adds a record.
fn add(offer: &Offer, random: &mut Random) -> Command {
    let pair = spelled_pair(offer.pair, random);
    let (n, ten) = (spelled(offer.n, random), spelled_bytes(&offer.ten, random));
    command(&format!("add {FILE} {pair} {n} {ten}"))
}

/// The commands that ask a question, about a sheet of so many bytes; none for what the program
/// cannot be asked: it reads into room for a record, and adds where there is room.
fn commands(question: &Question, length: usize, random: &mut Random) -> Vec<Command> {
    match question {
        Question::Check => ["check", "list"]
            .map(|word| command(&format!("{word} {FILE}")))
            .into(),
        Question::Read {
            place,
            room: RECORD,
        } => vec![command(&format!("at {FILE} {}", spelled(place, random)))],
        Question::Find { pair } => {
            let pair = spelled_pair(*pair, random);
            vec![command(&format!("find {FILE} {pair}"))]
        }
        Question::Append { room, used, offer } if *used == length && *room >= length + RECORD => {
            vec![add(offer, random)]
        }
        _ => vec![],
    }
}

/// The commands that ask questions about a sheet.
fn all_commands(questions: &[Question], sheet: &[u8], random: &mut Random) -> Vec<Command> {
    let about = |question: &Question| commands(question, sheet.len(), random);
    questions.iter().flat_map(about).collect()
}

/// Right sheets: every question.
fn right(maker: &mut Maker) {
    for count in COUNTS {
        let sheet = made::sheet(count, &mut maker.random);
        let asked = questions::all(&sheet, &mut maker.random);
        let commands = all_commands(&asked, &sheet, &mut maker.random);
        maker.each(&sheet, &commands);
    }
}

/// Sheets that would be right were they not too long.
fn too_long(maker: &mut Maker) {
    for count in [MOST + 1, MOST + 2, 2 * MOST] {
        let sheet = made::sheet(count, &mut maker.random);
        for length in [RECORD * MOST + 1, sheet.len() - 1, sheet.len()] {
            faulty(maker, &sheet[..length], 0);
        }
    }
}

/// The commands that ask a sheet at fault, at a place too.
fn faulty(maker: &mut Maker, sheet: &[u8], place: usize) {
    let asked = questions::some(sheet, 2, &mut maker.random);
    let commands = all_commands(&asked, sheet, &mut maker.random);
    let mut chosen = commands[..2].to_vec();
    for kind in ["at", "find", "add"] {
        let alike = commands.iter().filter(|one| one.words[0] == kind);
        let alike: Vec<&Command> = alike.collect();
        if !alike.is_empty() {
            chosen.push(maker.random.one(&alike).clone());
        }
    }
    chosen.push(command(&format!("at {FILE} {place}")));
    chosen.push(command(&format!("find {FILE} 1 0")));
    let offer = offer(made::GREATEST, &mut maker.random);
    chosen.push(add(&offer, &mut maker.random));
    maker.each(sheet, &chosen);
}

/// Makes the record at a place be refused with a number, if it can be.
fn spoil(sheet: &mut [u8], place: usize, number: u8) {
    let (before, from) = sheet.split_at_mut(RECORD * place);
    let record = &mut from[..RECORD];
    match number {
        10 => record[..2].fill(0),
        11 if place > 0 => {
            let pair = &before[before.len() - RECORD..][..4];
            let n = record[3] % 16;
            record[..4].copy_from_slice(pair);
            put_field(record, 7, n);
        }
        1 => put_field(record, 7, 10),
        _ => {
            let blocks = refused_blocks();
            let block = blocks.iter().find(|(_, _, refusal)| *refusal == number);
            if let Some((n, ten, _)) = block {
                put_field(record, 7, *n);
                record[4..].copy_from_slice(ten);
            }
        }
    }
}

/// The first, the middle and the last place of so many.
fn places(count: usize) -> [usize; 3] {
    [0, count / 2, count - 1]
}

/// Sheets with each refusal at the first, the middle and the last record: the first record alone is
/// never refused with 11.
fn each_refusal(maker: &mut Maker) {
    for count in [3, MOST] {
        let right = made::sheet(count, &mut maker.random);
        let pairs = NUMBERS.map(|number| places(count).map(|place| (number, place)));
        for (number, place) in pairs.into_iter().flatten() {
            let mut sheet = right.clone();
            spoil(&mut sheet, place, number);
            if (number, place) != (11, 0) {
                let part = place as u64;
                let refusal = Sheet::read(&sheet).count();
                assert_eq!(refusal, Err(Answer { number, part }));
            }
            faulty(maker, &sheet, place);
        }
        for place in places(count) {
            faulty(maker, &right[..RECORD * place + 13], place);
        }
    }
}

/// Sheets with each damage at the first, the middle and the last record.
fn damaged(maker: &mut Maker) {
    for damage in DAMAGES {
        for count in DAMAGED {
            let mut sheet = made::sheet(count, &mut maker.random);
            let place = maker.random.one(&places(count));
            damage(&mut sheet, place, &mut maker.random);
            faulty(maker, &sheet, place);
        }
    }
}

/// The cover of a table by chance of up to five inputs: each has a match.
pub fn cover(random: &mut Random) -> Vec<u8> {
    let (n, bits) = (random.below(6), random.bits());
    let table = table_of(n, |row| bits >> row & 1 == 1);
    text(&names(n + 1, random), &rows(n, &table, true))
}

/// A command that adds a record with this number pair, by a cover or by its ten bytes.
pub fn add_either(pair: Pair, by_cover: bool, random: &mut Random) -> Command {
    match by_cover {
        true => add_cover(&spelled_pair(pair, random), &cover(random)),
        false => add(&offer(pair, random), random),
    }
}

/// Sheets that grow, from nothing and up to the most records; with what is refused between, and one
/// record more than the most.
fn in_a_row(maker: &mut Maker) {
    for count in [0, 1, 500, MOST - ADDED] {
        let random = &mut maker.random;
        let pairs = made::pairs(count + ADDED, random);
        let sheet = made::sheet_of(&pairs[..count], random);
        let twice = pairs[count..].iter().flat_map(|pair| [*pair; 2]);
        let mut commands = vec![];
        for pair in twice.chain([made::GREATEST]) {
            let by_cover = random.below(2) == 0;
            commands.push(add_either(pair, by_cover, random));
        }
        commands.push(command(&format!("check {FILE}")));
        commands.push(command(&format!("list {FILE}")));
        maker.row(&sheet, &commands);
    }
}

/// Every case about what sheets hold.
pub fn all(maker: &mut Maker) {
    right(maker);
    too_long(maker);
    each_refusal(maker);
    damaged(maker);
    in_a_row(maker);
}
