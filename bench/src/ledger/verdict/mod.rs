//! Whether an event is stored, and as what; or the result of the first rule that it breaks.
//!
//! The rules stand in the order in which their results take precedence.

mod account;
mod moving;
mod repeated;
mod settling;
mod transfer;

pub use account::judge_account;
pub use transfer::judge_transfer;

use super::outcome::Outcome;

/// A rule: the result of an event of which this holds.
fn refuse(holds: bool, outcome: Outcome) -> Result<(), Outcome> {
    if holds {
        Err(outcome)
    } else {
        Ok(())
    }
}
