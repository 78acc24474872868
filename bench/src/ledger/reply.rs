//! What calls answer.

use super::outcome::Outcome;

/// An event that wasn't stored.
#[derive(Clone, Copy, Debug, PartialEq, Eq)]
pub struct Failure {
    /// Its place in its batch, from 0.
    pub index: u32,
    pub outcome: Outcome,
}

/// Why a call is refused as a whole. It leaves everything as it was.
#[derive(Clone, Copy, Debug, PartialEq, Eq)]
pub enum Refusal {
    /// More than [`BATCH_MAX`](super::limits::BATCH_MAX) events or ids.
    BatchTooLarge,
    /// The clock would pass [`TIMESTAMP_MAX`](super::limits::TIMESTAMP_MAX).
    ClockExhausted,
}

impl Refusal {
    pub fn name(self) -> &'static str {
        match self {
            Refusal::BatchTooLarge => "batch_too_large",
            Refusal::ClockExhausted => "clock_exhausted",
        }
    }
}
