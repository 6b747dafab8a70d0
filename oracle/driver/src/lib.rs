//! The parts of the oracle, for the program beside and for those that compare with it.
pub mod acceptance;
pub mod answer;
pub mod books;
pub mod engine;
pub mod file;
pub mod fill;
pub mod trace;
