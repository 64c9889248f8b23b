//! Calls core and model on one input and compares the answers and every lent
//! slice, with guards around each slice that the core is lent.
//!
//! A comparison gives the outcome that both sides agree on, or a text that says
//! what differs and on which input.

#![warn(missing_docs)]

pub mod cuts;
pub mod fuzz;
mod guard;
pub mod layouts;
pub mod lists;
pub mod marks;
pub mod origins;
pub mod parts;
pub mod random;
pub mod raw;
pub mod records;
pub mod rects;
pub mod runs;
pub mod strips;
pub mod tiles;
pub mod versions;
pub mod ways;

/// What both sides answered, and the samples they left in the output slice.
#[derive(Clone, Debug, PartialEq, Eq)]
pub struct Outcome {
    /// 0, or the number of a refusal.
    pub answer: u32,
    /// The output slice afterwards.
    pub output: Vec<i32>,
    /// Whether the call is marked (document 02, A.3); a refused one isn't.
    pub marked: bool,
}

/// An outcome, or what differs.
pub type Compared = Result<Outcome, String>;

/// The number of an answer of the safe functions.
pub fn number<T>(answer: &Result<T, squeeze::Refusal>) -> u32 {
    match answer {
        Ok(_) => 0,
        Err(refusal) => refusal.number(),
    }
}

/// What a comparison gave; panics with the difference if there is one.
pub fn must<T>(compared: Result<T, String>) -> T {
    match compared {
        Ok(value) => value,
        Err(text) => panic!("{text}"),
    }
}

/// How often each answer was met.
#[derive(Clone, Copy, Debug, Default, PartialEq, Eq)]
pub struct Tally(pub [u64; 15]);

impl Tally {
    /// Counts an answer.
    pub fn add(&mut self, answer: u32) {
        self.0[answer as usize] += 1;
    }

    /// All answers counted.
    pub fn total(&self) -> u64 {
        self.0.iter().sum()
    }

    /// The answers met, smallest first.
    pub fn met(&self) -> Vec<usize> {
        (0..15).filter(|&answer| self.0[answer] > 0).collect()
    }

    /// Prints how many cases a test compared (seen with `--nocapture`).
    pub fn print(&self, test: &str) {
        println!("{test}: {} cases, answers {:?}", self.total(), self.0);
    }
}

/// Nothing if `same`, else the text.
fn expect(same: bool, text: impl FnOnce() -> String) -> Result<(), String> {
    if same {
        Ok(())
    } else {
        Err(text())
    }
}
