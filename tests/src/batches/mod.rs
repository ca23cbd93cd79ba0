//! The comparison of matching a whole build: a second reading, builds to ask about, and a judge of
//! the answers.

pub mod cases;
pub mod damage;
pub mod groups;
pub mod judge;
pub mod made;
pub mod second;
