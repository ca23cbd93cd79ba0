//! The comparison of checking, evaluating, typing and packing: second versions of the four, blocks
//! and parts to ask about, and a judge of the answers.

pub mod groups;
pub mod judge;
pub mod parts;
pub mod second;
