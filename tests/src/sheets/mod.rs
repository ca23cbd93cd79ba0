//! The comparison of the sheet's calls: a second reader and writer, sheets and questions, and a
//! judge of the answers.

pub mod damage;
pub mod document;
pub mod groups;
pub mod judge;
pub mod made;
pub mod questions;
pub mod second;
pub mod watched;
