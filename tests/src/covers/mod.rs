//! The comparison of reading covers: a second reader, texts to ask about, and a judge of the
//! answers; for the soak also covers that ABC writes.

pub mod abc;
pub mod cases;
pub mod damage;
pub mod damage_words;
pub mod groups;
pub mod judge;
pub mod long;
pub mod made;
pub mod network;
pub mod places;
pub mod second;
pub mod vectors;
