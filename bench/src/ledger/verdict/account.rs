//! Accounts.

use super::refuse;
use crate::ledger::limits::ID_MAX;
use crate::ledger::outcome::Outcome;
use crate::ledger::records::Account;
use crate::ledger::Ledger;

/// The account that an event is stored as at a timestamp, or why it isn't.
pub fn judge_account(ledger: &Ledger, timestamp: u64, event: &Account) -> Result<Account, Outcome> {
    check_alone(event)?;
    match ledger.accounts.records.get(event.id) {
        Some(stored) => Err(repeated(event, stored)),
        None => Ok(Account {
            timestamp,
            ..*event
        }),
    }
}

/// What can be wrong with an account by itself.
fn check_alone(event: &Account) -> Result<(), Outcome> {
    let served = 2 * Account::CLOSED - 1 - Account::IMPORTED;
    let has_both_limits = event.has(Account::DEBITS_MUST_NOT_EXCEED_CREDITS)
        && event.has(Account::CREDITS_MUST_NOT_EXCEED_DEBITS);
    refuse(event.timestamp != 0, Outcome::TimestampMustBeZero)?;
    refuse(event.reserved != 0, Outcome::ReservedField)?;
    refuse(event.has(!served), Outcome::ReservedFlag)?;
    refuse(event.id == 0, Outcome::IdMustNotBeZero)?;
    refuse(event.id == ID_MAX, Outcome::IdMustNotBeIntMax)?;
    refuse(has_both_limits, Outcome::FlagsAreMutuallyExclusive)?;
    refuse(event.debits_pending != 0, Outcome::DebitsPendingMustBeZero)?;
    refuse(event.debits_posted != 0, Outcome::DebitsPostedMustBeZero)?;
    refuse(
        event.credits_pending != 0,
        Outcome::CreditsPendingMustBeZero,
    )?;
    refuse(event.credits_posted != 0, Outcome::CreditsPostedMustBeZero)?;
    refuse(event.ledger == 0, Outcome::LedgerMustNotBeZero)?;
    refuse(event.code == 0, Outcome::CodeMustNotBeZero)
}

/// The result of an account whose id is stored, compared with that account as it is now.
fn repeated(event: &Account, stored: &Account) -> Outcome {
    if event.flags != stored.flags {
        Outcome::ExistsWithDifferentFlags
    } else if event.user_data_128 != stored.user_data_128 {
        Outcome::ExistsWithDifferentUserData128
    } else if event.user_data_64 != stored.user_data_64 {
        Outcome::ExistsWithDifferentUserData64
    } else if event.user_data_32 != stored.user_data_32 {
        Outcome::ExistsWithDifferentUserData32
    } else if event.ledger != stored.ledger {
        Outcome::ExistsWithDifferentLedger
    } else if event.code != stored.code {
        Outcome::ExistsWithDifferentCode
    } else {
        Outcome::Exists
    }
}
