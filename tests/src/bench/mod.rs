//! What the programs that take times share: the matchers and how they are asked, a sheet to ask
//! about, texts and a fast reader of them, tables of times, and the stack of a call.

pub mod matchers;
pub mod numbers;
pub mod reader;
pub mod sample;
pub mod stack;
pub mod table;
pub mod texts;
