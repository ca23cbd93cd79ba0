//! The test of the programs: inputs with what must be printed for them, and runs.

pub mod build;
pub mod cases;
pub mod cover;
pub mod judge;
pub mod run;
pub mod sheet;
