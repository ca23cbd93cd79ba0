//! Answers that follow from document 01 by hand.

use crate::document::{matches, refused_blocks};
use crate::library::Answer;
use crate::sheets::made::{record, Pair};
use crate::sheets::questions::append;
use crate::sheets::watched::{Offer, Question};

/// A question, the sheet it is about, and its answer.
type Fact = (Question, Vec<u8>, Answer);

/// The number pairs of the eight.
const PAIRS: [Pair; 8] = [
    (1, 0),
    (1, 1),
    (1, 4095),
    (2, 0),
    (255, 9),
    (256, 8),
    (257, 7),
    (257, 4095),
];

/// The block of P2, for any n.
const P2: [u8; 10] = [0xFF, 0xFF, 0xFF, 0xFF, 0xF0, 0, 0, 0, 0, 0];

/// A sheet of the blocks of P1 to P8.
fn eight() -> Vec<u8> {
    let all = PAIRS.iter().zip(matches());
    all.flat_map(|(pair, example)| record(*pair, example.n, &example.block))
        .collect()
}

/// Records to follow the eight, with the number of their refusal: P10, P11, P1 as document 01 has
/// it and Q4, one with n 10, one with the last record's number pair, one with a greater block
/// number and a lesser spacecraft number, one with spacecraft number 0.
fn wrong() -> Vec<(Pair, u8, [u8; 10], u8)> {
    let of_blocks = refused_blocks().map(|(n, block, number)| ((258, 0), n, block, number));
    let mut wrong = of_blocks.to_vec();
    wrong.extend([
        ((258, 0), 10, P2, 1),
        ((257, 4095), 0, P2, 11),
        ((256, 4095), 0, P2, 11),
        ((0, 0), 0, P2, 10),
    ]);
    wrong
}

/// A record offered to a sheet with room for it.
fn added(sheet: &[u8], pair: Pair, n: u8, ten: &[u8]) -> Question {
    let ten = ten.to_vec();
    append(sheet, sheet.len() + 14, Offer { pair, n, ten })
}

/// What is known of the eight records: their count, where each is, and what follows them.
fn about_eight() -> Vec<Fact> {
    let sheet = eight();
    let mut facts = vec![(Question::Check, sheet.clone(), Answer::success(8))];
    for (pair, place) in PAIRS.into_iter().zip(0..) {
        let read = || Question::Read { place, room: 14 };
        let cut = sheet[..14 * place as usize].to_vec();
        let find = Question::Find { pair };
        facts.push((find, sheet.clone(), Answer::success(place)));
        facts.push((read(), sheet.clone(), Answer::success(14)));
        facts.push((read(), cut, Answer::refusal(12)));
    }
    for example in matches() {
        let added = added(&sheet, (258, 0), example.n, &example.block);
        facts.push((added, sheet.clone(), Answer::success(126)));
    }
    facts
}

/// What is known of the eight records and a wrong one after them, there or offered.
fn about_wrong() -> Vec<Fact> {
    let mut facts = vec![];
    for (pair, n, block, number) in wrong() {
        let sheet = eight();
        let nine = [sheet.clone(), record(pair, n, &block)].concat();
        let answer = Answer { number, part: 8 };
        facts.push((added(&sheet, pair, n, &block), sheet, answer));
        facts.push((Question::Check, nine.clone(), answer));
        facts.push((Question::Read { place: 0, room: 0 }, nine.clone(), answer));
        facts.push((Question::Find { pair: (1, 0) }, nine, answer));
    }
    facts
}

/// What is known of the eight records with P1 as document 01 has it in the place of one of them.
fn about_low() -> Vec<Fact> {
    let [_, _, (n, low, number), _] = refused_blocks();
    let mut facts = vec![];
    for (pair, place) in PAIRS.into_iter().zip(0..) {
        let mut sheet = eight();
        let at = 14 * place as usize;
        sheet[at..at + 14].copy_from_slice(&record(pair, n, &low));
        let asked = [
            Question::Check,
            Question::Read { place, room: 14 },
            Question::Find { pair },
            added(&sheet, (258, 0), n, &P2),
        ];
        let answer = Answer {
            number,
            part: place,
        };
        facts.extend(asked.map(|question| (question, sheet.clone(), answer)));
    }
    facts
}

/// What is known of a sheet of 4,681 records with P2's block, of spacecraft 1 and 2: nothing can be
/// added, and the faults of a record offered come before 5.
fn about_full() -> Vec<Fact> {
    let pair = |k: u32| (1 + k / 4096, k % 4096);
    let sheet: Vec<u8> = (0..4681).flat_map(|k| record(pair(k), 0, &P2)).collect();
    let (last, next) = ((2, 584), (2, 585));
    let offered = |pair, n, ten: &[u8]| added(&sheet, pair, n, ten);
    let full = |number| Answer { number, part: 4681 };
    let p8 = &matches()[7].block;
    let known = [
        (Question::Check, Answer::success(4681)),
        (Question::Find { pair: last }, Answer::success(4680)),
        (Question::Find { pair: next }, Answer::refusal(12)),
        (offered(next, 0, &P2), Answer::refusal(5)),
        (offered((65536, 0), 0, &P2), full(10)),
        (offered((3, 4096), 0, &P2), full(10)),
        (offered(last, 10, &P2), full(11)),
        (offered(next, 10, &P2[1..]), full(1)),
        (offered(next, 0, &P2[1..]), Answer::refusal(2)),
        (offered(next, 0, p8), full(6)),
    ];
    let facts = known.map(|(question, answer)| (question, sheet.clone(), answer));
    facts.into()
}

/// Everything that is known.
pub fn facts() -> Vec<Fact> {
    let mut facts = vec![
        (Question::Check, vec![], Answer::success(0)),
        (Question::Check, vec![0; 13], Answer::refusal(2)),
        (Question::Check, vec![0; 14], Answer::refusal(10)),
        (Question::Check, vec![0; 65534], Answer::refusal(10)),
        (Question::Check, vec![0; 65548], Answer::refusal(2)),
    ];
    facts.extend(about_eight());
    facts.extend(about_wrong());
    facts.extend(about_low());
    facts.extend(about_full());
    facts
}

#[cfg(test)]
mod tests {
    use super::facts;
    use crate::sheets::second::Sheet;
    use crate::sheets::watched::second;

    #[test]
    fn the_second_reader_and_writer_agrees() {
        for (question, sheet, answer) in facts() {
            let left = second(&question, &sheet, &Sheet::read(&sheet), 0);
            assert_eq!(left.answer, answer, "{question}");
        }
    }
}
