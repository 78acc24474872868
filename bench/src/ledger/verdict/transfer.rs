//! Transfers.

use super::moving::judge_moving;
use super::refuse;
use super::settling::judge_settling;
use crate::ledger::limits::ID_MAX;
use crate::ledger::outcome::Outcome;
use crate::ledger::records::Transfer;
use crate::ledger::store::Accepted;
use crate::ledger::Ledger;

/// The transfer that an event is stored as at a timestamp, or why it isn't.
pub fn judge_transfer(
    ledger: &Ledger,
    timestamp: u64,
    event: &Transfer,
) -> Result<Accepted, Outcome> {
    check_alone(event)?;
    if event.is_settling() {
        judge_settling(ledger, timestamp, event)
    } else {
        judge_moving(ledger, timestamp, event)
    }
}

/// What can be wrong with any transfer by itself.
fn check_alone(event: &Transfer) -> Result<(), Outcome> {
    let served = Transfer::IMPORTED - 1 - Transfer::BALANCING_DEBIT - Transfer::BALANCING_CREDIT;
    let has_exclusive_flags = (event.is_pending() && event.is_settling())
        || (event.is_post() && event.is_void())
        || (event.is_settling() && event.is_closing());
    refuse(event.timestamp != 0, Outcome::TimestampMustBeZero)?;
    refuse(event.has(!served), Outcome::ReservedFlag)?;
    refuse(event.id == 0, Outcome::IdMustNotBeZero)?;
    refuse(event.id == ID_MAX, Outcome::IdMustNotBeIntMax)?;
    refuse(has_exclusive_flags, Outcome::FlagsAreMutuallyExclusive)?;
    refuse(
        event.is_closing() && !event.is_pending(),
        Outcome::ClosingTransferMustBePending,
    )
}
