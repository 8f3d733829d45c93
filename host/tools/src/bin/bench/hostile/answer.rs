//! Answers of library and reference, by which both are compared.

use sarvoltig::Refusal;
use sarvoltig_reference::model;
use std::hint::black_box;
use std::time::{Duration, Instant};

/// One number of an answer, or the number of its refusal.
pub type Answer = Result<u64, u32>;

/// The time of a call, and its answer by one of its numbers.
pub fn answered<T, E: Refused>(
    call: impl FnOnce() -> Result<T, E>,
    number: impl FnOnce(T) -> u64,
) -> (Duration, Answer) {
    let start = Instant::now();
    let answer = black_box(call());
    let time = start.elapsed();
    (time, answer.map(number).map_err(Refused::number))
}

/// A refusal by its number.
pub trait Refused {
    fn number(self) -> u32;
}

impl Refused for Refusal {
    fn number(self) -> u32 {
        Refusal::number(self)
    }
}

impl Refused for model::Refusal {
    fn number(self) -> u32 {
        self.number.into()
    }
}
