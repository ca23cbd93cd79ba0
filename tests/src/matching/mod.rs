//! The comparison of matching: a second matcher, functions to ask about, and a judge of the
//! answers.

pub mod groups;
pub mod judge;
pub mod made;
pub mod second;
