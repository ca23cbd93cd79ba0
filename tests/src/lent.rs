//! Buffers lent to a call to the exact byte, and what the call leaves of them.

use crate::library::Answer;
use std::hint::black_box;

/// Bytes watched before a lent buffer and after it.
const AROUND: usize = 16;

/// A lent buffer with the bytes around it.
#[derive(PartialEq)]
pub struct Lent {
    area: Vec<u8>,
}

/// What a call leaves: its whole answer, and the two buffers that it was lent.
#[derive(PartialEq)]
pub struct Left {
    pub answer: Answer,
    pub lent: [Lent; 2],
}

/// What stands in every byte around a buffer and in one that is to be written: of two calls in turn
/// each bit is once 0 and once 1.
pub fn filling(call: usize) -> u8 {
    [0xA5, 0x5A][call % 2]
}

impl Lent {
    /// A buffer of this length that begins with these bytes, as many as it holds; the rest, and
    /// what is around it, is the filling.
    pub fn begun(bytes: &[u8], length: usize, filling: u8) -> Lent {
        let mut area = vec![filling; AROUND + length + AROUND];
        let held = bytes.len().min(length);
        area[AROUND..AROUND + held].copy_from_slice(&bytes[..held]);
        Lent { area }
    }

    /// A buffer of these bytes.
    pub fn of(bytes: &[u8], filling: u8) -> Lent {
        Lent::begun(bytes, bytes.len(), filling)
    }

    /// A buffer to be written.
    pub fn room(length: usize, filling: u8) -> Lent {
        Lent::begun(&[], length, filling)
    }

    /// No buffer, for a call that is lent only one.
    pub fn none() -> Lent {
        Lent::room(0, 0)
    }

    /// The buffer.
    pub fn bytes(&self) -> &[u8] {
        &self.area[AROUND..self.area.len() - AROUND]
    }

    /// The buffer, to be written.
    pub fn bytes_mut(&mut self) -> &mut [u8] {
        let end = self.area.len() - AROUND;
        &mut self.area[AROUND..end]
    }

    /// Writes bytes into the buffer from a place on.
    pub fn put(&mut self, place: usize, bytes: &[u8]) {
        self.bytes_mut()[place..place + bytes.len()].copy_from_slice(bytes);
    }

    /// The first byte that is not as it must be, for a reader of a difference.
    fn changed(&self, wanted: &Lent, name: &str) -> Option<String> {
        let both = self.area.iter().zip(&wanted.area);
        let (place, (is, must)) = both.enumerate().find(|(_, (is, must))| is != must)?;
        let byte = place as isize - AROUND as isize;
        Some(format!(
            "; byte {byte} of {name} is {is:02X}, not {must:02X}"
        ))
    }
}

/// What a call that writes a block must leave of its buffers, the second being the one written: the
/// ten bytes at its start, or a refusal's number and no byte changed.
pub fn must_leave(outcome: Result<[u8; 10], u8>, mut lent: [Lent; 2]) -> Left {
    let answer = match outcome {
        Ok(block) => {
            lent[1].put(0, &block);
            Answer::success(10)
        }
        Err(number) => Answer::refusal(number),
    };
    Left { answer, lent }
}

impl Left {
    /// What a call leaves that has these buffers. A call is trusted with nothing: it may have
    /// written to a buffer that it is lent for reading, so the compiler must not take its bytes for
    /// known.
    pub fn after(answer: Answer, lent: [Lent; 2]) -> Left {
        let lent = black_box(lent);
        Left { answer, lent }
    }

    /// The answer, and the first byte of each buffer that is not as it must be, for a reader of a
    /// difference.
    pub fn described(&self, wanted: &Left, names: [&str; 2]) -> String {
        let changed = |k: usize| self.lent[k].changed(&wanted.lent[k], names[k]);
        let bytes: String = (0..2).filter_map(changed).collect();
        format!("{}{bytes}", said(self.answer))
    }
}

/// An answer for a reader of a difference.
pub fn said(Answer { number, part }: Answer) -> String {
    match number {
        0 => format!("answers {part} ({part:#X})"),
        _ => format!("refuses with {number}, the other part {part}"),
    }
}
