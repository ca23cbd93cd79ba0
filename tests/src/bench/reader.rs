//! A fast reader of covers, made only to be timed beside the product's. It goes over the text once
//! and keeps the rows of the table as bits of eight words, row 0 the highest bit of the first.

use crate::library::Answer;
use crate::table::table_length;

/// The code of a byte that is no mark; the marks `0`, `1` and `-` have the codes below.
const NO_MARK: u8 = 3;

/// The code of each byte.
const CODES: [u8; 256] = codes();

/// For each of the variables 0 to 5 and the code of its mark, the rows of a word that agree.
const ROWS: [[u64; 4]; 6] = [
    agreeing(0x5555_5555_5555_5555),
    agreeing(0x3333_3333_3333_3333),
    agreeing(0x0F0F_0F0F_0F0F_0F0F),
    agreeing(0x00FF_00FF_00FF_00FF),
    agreeing(0x0000_FFFF_0000_FFFF),
    agreeing(0x0000_0000_FFFF_FFFF),
];

/// For each of the variables 6 to 8 and the code of its mark, the words that agree, word k as bit k.
const WORDS: [[u64; 4]; 3] = [agreeing(0xAA), agreeing(0xCC), agreeing(0xF0)];

const fn codes() -> [u8; 256] {
    let mut codes = [NO_MARK; 256];
    codes[b'0' as usize] = 0;
    codes[b'1' as usize] = 1;
    codes[b'-' as usize] = 2;
    codes
}

/// What agrees with each code where this agrees with a 1.
const fn agreeing(one: u64) -> [u64; 4] {
    [!one, one, !0, 0]
}

/// The text, and how far it is read.
struct Text<'a> {
    bytes: &'a [u8],
    at: usize,
}

/// What the head of a cover says: the first ten names, and how many there are.
struct Head<'a> {
    names: [&'a [u8]; 10],
    count: usize,
}

/// What the lines of a cover say.
#[derive(Default)]
struct Lines {
    rows: [u64; 8],
    /// Whether there are lines with output 0, and with output 1.
    outputs: [bool; 2],
}

/// What is read, or none if the text is no cover.
type Read<T> = Option<T>;

impl<'a> Text<'a> {
    fn byte(&self) -> Option<u8> {
        self.bytes.get(self.at).copied()
    }

    /// Whether a word can have no byte here.
    fn at_stop(&self) -> bool {
        match self.byte() {
            None | Some(b' ' | b'\t' | b'\n' | b'#') => true,
            Some(b'\r') => self.bytes.get(self.at + 1) == Some(&b'\n'),
            _ => false,
        }
    }

    fn skip_blanks(&mut self) {
        while let Some(b' ' | b'\t') = self.byte() {
            self.at += 1;
        }
    }

    /// The next word of the line, which is empty at its end.
    fn word(&mut self) -> &'a [u8] {
        self.skip_blanks();
        let start = self.at;
        while !self.at_stop() {
            self.at += 1;
        }
        &self.bytes[start..self.at]
    }

    /// Goes to the next line that has words, if there is one.
    fn next_line(&mut self) -> bool {
        loop {
            self.skip_blanks();
            if !self.at_stop() {
                return true;
            }
            let rest = &self.bytes[self.at..];
            match rest.iter().position(|byte| *byte == b'\n') {
                Some(end) => self.at += end + 1,
                None => return false,
            }
        }
    }

    /// Reads the head.
    fn head(&mut self) -> Read<Head<'a>> {
        let mut head = Head {
            names: [&[]; 10],
            count: 0,
        };
        if !self.next_line() || self.word() != b".names" {
            return None;
        }
        loop {
            let name = self.word();
            if name.is_empty() {
                return (head.count > 0).then_some(head);
            }
            if name
                .iter()
                .any(|byte| !byte.is_ascii_graphic() || *byte == b'\\')
            {
                return None;
            }
            if let Some(place) = head.names.get_mut(head.count) {
                *place = name;
            }
            head.count += 1;
        }
    }

    /// Reads the output and the end of its line.
    fn output(&mut self) -> Read<bool> {
        let output = match self.word() {
            b"0" => false,
            b"1" => true,
            _ => return None,
        };
        self.word().is_empty().then_some(output)
    }

    /// Reads the marks of at most nine inputs, and the separator after them: the rows of a word and
    /// the words that agree.
    fn marks(&mut self, inputs: usize) -> Read<(u64, u64)> {
        let marks = self.bytes.get(self.at..self.at + inputs)?;
        let (mut rows, mut words, mut greatest) = (!0, !0, 0);
        for (variable, mark) in marks.iter().enumerate() {
            let code = CODES[*mark as usize];
            greatest = greatest.max(code);
            match variable {
                0..6 => rows &= ROWS[variable][code as usize],
                _ => words &= WORDS[variable - 6][code as usize],
            }
        }
        self.at += inputs;
        let parted = inputs == 0 || matches!(self.byte(), Some(b' ' | b'\t'));
        (parted && greatest < NO_MARK).then_some((rows, words))
    }

    /// Reads the lines of a cover with at most nine inputs.
    fn lines(&mut self, inputs: usize) -> Read<Lines> {
        let mut lines = Lines::default();
        let used = 1 << inputs.saturating_sub(6);
        while self.next_line() {
            let (rows, words) = self.marks(inputs)?;
            for (k, word) in lines.rows[..used].iter_mut().enumerate() {
                *word |= rows & (words >> k & 1).wrapping_neg();
            }
            lines.outputs[self.output()? as usize] = true;
        }
        Some(lines)
    }

    /// Reads the lines of a cover with more inputs, of which nothing is kept.
    fn wide_lines(&mut self, inputs: usize) -> Read<()> {
        while self.next_line() {
            let marks = self.word();
            let fine = marks.iter().all(|mark| CODES[*mark as usize] < NO_MARK);
            if marks.len() != inputs || !fine {
                return None;
            }
            self.output()?;
        }
        Some(())
    }
}

impl Head<'_> {
    /// Whether two of the first ten names are the same.
    fn repeats(&self) -> bool {
        let names = &self.names[..self.count];
        (1..names.len()).any(|place| names[..place].contains(&names[place]))
    }
}

impl Lines {
    /// Writes the table of n inputs at the start of a buffer that has room for it.
    fn write(&self, n: usize, out: &mut [u8]) {
        let turned = if self.outputs[0] { !0 } else { 0 };
        let unused = if n < 6 { !0 >> (1 << n) } else { 0 };
        for (bytes, rows) in out[..table_length(n)].chunks_mut(8).zip(self.rows) {
            let rows = (rows ^ turned) & !unused;
            bytes.copy_from_slice(&rows.to_be_bytes()[..bytes.len()]);
        }
    }
}

/// The n of a cover whose table is written at the start of a buffer, or the number of the refusal.
fn read_into(text: &[u8], out: &mut [u8]) -> Result<usize, u8> {
    let mut text = Text { bytes: text, at: 0 };
    let head = text.head().ok_or(15)?;
    let n = head.count - 1;
    if n > 9 {
        return Err(text.wide_lines(n).map_or(15, |()| 1));
    }
    let lines = text.lines(n).ok_or(15)?;
    if head.repeats() {
        return Err(16);
    }
    if lines.outputs == [true, true] {
        return Err(17);
    }
    if out.len() < table_length(n) {
        return Err(5);
    }
    lines.write(n, out);
    Ok(n)
}

/// Reads a cover, and answers as the product does.
pub fn read(text: &[u8], out: &mut [u8]) -> Answer {
    match read_into(text, out) {
        Ok(n) => Answer::success((table_length(n) as u64) << 8 | n as u64),
        Err(number) => Answer::refusal(number),
    }
}

#[cfg(test)]
mod tests {
    use super::read_into;
    use crate::covers::groups::damaged_text;
    use crate::covers::second;
    use crate::covers::vectors::Stock;
    use crate::covers::{cases, long, places};
    use crate::random::Random;
    use crate::table::table_length;

    /// Holds the fast reader to the second one, with this much room.
    fn compare(text: &[u8], room: usize) {
        let wanted = second::within(&second::read(text), room);
        let mut out = vec![0xA5; room];
        let read = read_into(text, &mut out);
        let table = |n: usize| out[..table_length(n)].to_vec();
        let read = read.map(|n| (n as u8, table(n)));
        assert_eq!(read, wanted, "{}", text.escape_ascii());
    }

    #[test]
    fn agrees_with_the_second_reader() {
        let stock = Stock::below(concat!(env!("CARGO_MANIFEST_DIR"), "/vectors"));
        let mut random = Random(1);
        let known = [cases::all(), places::all(), long::wide(), long::names()].concat();
        for (text, _) in known {
            compare(&text, 64);
        }
        for _ in 0..50_000 {
            let text = damaged_text(&stock, &mut random);
            compare(&text, random.below(66));
        }
    }
}
