//! The library as a C program has it: the calls that the header declares, each with the lengths
//! taken from the slices that are lent.

/// The declarations that build.rs takes from the header. A call without a wrapper stops the build.
mod calls {
    #![deny(dead_code)]
    include!(concat!(env!("OUT_DIR"), "/calls.rs"));
}

/// The 64 bits of an answer: 0 for success or the refusal's number, and the bits above these 8.
#[derive(Clone, Copy, PartialEq, Eq, Debug)]
pub struct Answer {
    pub number: u8,
    pub part: u64,
}

impl Answer {
    /// Success, with the other part of the answer.
    pub const fn success(part: u64) -> Answer {
        Answer { number: 0, part }
    }

    /// A refusal, with every other part 0.
    pub const fn refusal(number: u8) -> Answer {
        Answer { number, part: 0 }
    }

    /// The answer that 64 bits are.
    fn of(whole: u64) -> Answer {
        Answer {
            number: whole as u8,
            part: whole >> 8,
        }
    }
}

/// Reads a cover.
pub fn cover(text: &[u8], out: &mut [u8]) -> Answer {
    let (lent, length) = (text.as_ptr(), text.len());
    let (out, room) = (out.as_mut_ptr(), out.len());
    Answer::of(unsafe { calls::drawmitten_cover(lent, length, out, room) })
}

/// Matches a table of n inputs.
pub fn match_table(n: u8, table: &[u8], out: &mut [u8]) -> Answer {
    let (lent, room) = (out.as_mut_ptr(), out.len());
    Answer::of(unsafe { calls::drawmitten_match(n, table.as_ptr(), table.len(), lent, room) })
}

/// Matches every table of a build.
pub fn batch(requests: &[u8], out: &mut [u8]) -> Answer {
    let (lent, length) = (requests.as_ptr(), requests.len());
    let (out, room) = (out.as_mut_ptr(), out.len());
    Answer::of(unsafe { calls::drawmitten_batch(lent, length, out, room) })
}

/// Where the code of matching begins.
pub fn match_entry() -> usize {
    calls::drawmitten_match as *const () as usize
}

/// Checks a block.
pub fn check(n: u8, block: &[u8]) -> Answer {
    Answer::of(unsafe { calls::drawmitten_check(n, block.as_ptr(), block.len()) })
}

/// A block's value at a row.
pub fn evaluate(n: u8, block: &[u8], row: u32) -> Answer {
    Answer::of(unsafe { calls::drawmitten_evaluate(n, block.as_ptr(), block.len(), row) })
}

/// A block's type.
pub fn type_of(n: u8, block: &[u8]) -> Answer {
    Answer::of(unsafe { calls::drawmitten_type(n, block.as_ptr(), block.len()) })
}

/// Packs nine pin fields and three tables.
pub fn pack(n: u8, fields: &[u8; 9], (f, g, h): (u16, u16, u8), out: &mut [u8]) -> Answer {
    let (lent, room) = (out.as_mut_ptr(), out.len());
    Answer::of(unsafe { calls::drawmitten_pack(n, fields, f, g, h, lent, room) })
}

/// Checks a sheet.
pub fn sheet_check(sheet: &[u8]) -> Answer {
    Answer::of(unsafe { calls::drawmitten_sheet_check(sheet.as_ptr(), sheet.len()) })
}

/// Reads the record at a place.
pub fn sheet_read(sheet: &[u8], place: u64, out: &mut [u8]) -> Answer {
    let (lent, length) = (sheet.as_ptr(), sheet.len());
    let (out, room) = (out.as_mut_ptr(), out.len());
    Answer::of(unsafe { calls::drawmitten_sheet_read(lent, length, place, out, room) })
}

/// Finds the record with a number pair.
pub fn sheet_find(sheet: &[u8], (craft, block): (u32, u32)) -> Answer {
    let (lent, length) = (sheet.as_ptr(), sheet.len());
    Answer::of(unsafe { calls::drawmitten_sheet_find(lent, length, craft, block) })
}

/// Adds a record after the first `used` bytes of a buffer.
pub fn sheet_append(
    sheet: &mut [u8],
    used: usize,
    (craft, block): (u32, u32),
    n: u8,
    ten: &[u8],
) -> Answer {
    let (lent, room) = (sheet.as_mut_ptr(), sheet.len());
    let (ten, length) = (ten.as_ptr(), ten.len());
    Answer::of(unsafe {
        calls::drawmitten_sheet_append(lent, room, used, craft, block, n, ten, length)
    })
}
