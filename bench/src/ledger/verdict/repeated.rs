//! Transfers whose id is in use.

use crate::ledger::outcome::Outcome;
use crate::ledger::records::Transfer;
use crate::ledger::transfers::IdUse;
use crate::ledger::Ledger;

/// Whether the id of a transfer is free. A post or void is given with what it leaves out filled in.
pub fn check_id(ledger: &Ledger, event: &Transfer) -> Result<(), Outcome> {
    match ledger.transfers.id_use(event.id) {
        None => Ok(()),
        Some(IdUse::Failed) => Err(Outcome::IdAlreadyFailed),
        Some(IdUse::Stored(place)) => Err(repeated(event, &ledger.transfers.records[place])),
    }
}

/// The result of a transfer whose id is stored.
fn repeated(event: &Transfer, stored: &Transfer) -> Outcome {
    if event.flags != stored.flags {
        Outcome::ExistsWithDifferentFlags
    } else if event.pending_id != stored.pending_id {
        Outcome::ExistsWithDifferentPendingId
    } else if event.debit_account_id != stored.debit_account_id {
        Outcome::ExistsWithDifferentDebitAccountId
    } else if event.credit_account_id != stored.credit_account_id {
        Outcome::ExistsWithDifferentCreditAccountId
    } else if event.amount != stored.amount {
        Outcome::ExistsWithDifferentAmount
    } else if event.user_data_128 != stored.user_data_128 {
        Outcome::ExistsWithDifferentUserData128
    } else if event.user_data_64 != stored.user_data_64 {
        Outcome::ExistsWithDifferentUserData64
    } else if event.user_data_32 != stored.user_data_32 {
        Outcome::ExistsWithDifferentUserData32
    } else if event.ledger != stored.ledger {
        Outcome::ExistsWithDifferentLedger
    } else if event.code != stored.code {
        Outcome::ExistsWithDifferentCode
    } else if event.timeout != stored.timeout {
        Outcome::ExistsWithDifferentTimeout
    } else {
        Outcome::Exists
    }
}
