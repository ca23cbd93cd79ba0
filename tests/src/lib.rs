//! What the tests at the product's edges share, and the second versions that they hold it to. Of
//! the product they use nothing but the header, the archive and the program.

pub mod batches;
pub mod bench;
pub mod blemish;
pub mod block;
pub mod blocks;
pub mod covers;
pub mod document;
#[cfg(test)]
mod header;
pub mod hexadecimal;
pub mod lent;
pub mod library;
pub mod made;
pub mod matching;
pub mod program;
pub mod random;
pub mod sheets;
pub mod table;
pub mod tally;
pub mod ten;
pub mod vectors;
pub mod words;
