//! One call, carried out by the rules of docs/src at either width.
use crate::books::Books;

#[derive(Clone, PartialEq, Debug)]
pub enum Outcome {
    Done(Books),
    /// one of document 01's numbers; the books stay
    Refused(u32),
    /// an error that has no number, and the books that the text left
    Unnumbered(String, Books),
    /// a panic, and the books that the text left
    Panicked(String, Books),
}

impl Outcome {
    pub fn summary(&self) -> String {
        match self {
            Outcome::Done(_) => "done".into(),
            Outcome::Refused(number) => format!("refused {number}"),
            Outcome::Unnumbered(error, _) => format!("error {error}"),
            Outcome::Panicked(message, _) => format!("panic {message}"),
        }
    }
}

/// The five numbers of a bare epoch assignment.
#[derive(Clone, Copy, Debug)]
pub struct Assignment {
    pub left: u64,
    pub earliest: u64,
    pub activation_exit: u64,
    pub churn: u64,
    pub amount: u64,
}

/// The text as published, in 64 bits.
pub mod narrow {
    use rules64 as rules;
    include!("engine_body.rs");
}

/// The same text in whole numbers.
pub mod wide {
    use rules_wide as rules;
    include!("engine_body.rs");
}
