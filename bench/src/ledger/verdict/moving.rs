//! Transfers that move an amount, or set it aside, between the accounts that they name.

use super::refuse;
use super::repeated::check_id;
use crate::ledger::accounts::Sides;
use crate::ledger::limits::{AMOUNT_MAX, ID_MAX, TIMESTAMP_MAX};
use crate::ledger::outcome::Outcome;
use crate::ledger::records::{Account, Transfer};
use crate::ledger::store::Accepted;
use crate::ledger::transfers::{Role, Standing, Status};
use crate::ledger::Ledger;

/// Judges a transfer that is neither post nor void.
pub fn judge_moving(
    ledger: &Ledger,
    timestamp: u64,
    event: &Transfer,
) -> Result<Accepted, Outcome> {
    check_alone(event)?;
    check_id(ledger, event)?;
    let accounts = &ledger.accounts.records;
    let debit = accounts
        .find(event.debit_account_id)
        .ok_or(Outcome::DebitAccountNotFound)?;
    let credit = accounts
        .find(event.credit_account_id)
        .ok_or(Outcome::CreditAccountNotFound)?;
    let transfer = Transfer {
        timestamp,
        ..*event
    };
    check_sides(&transfer, &accounts[debit], &accounts[credit])?;
    Ok(Accepted {
        transfer,
        standing: Standing {
            sides: Sides { debit, credit },
            role: if event.is_pending() {
                Role::Pending(Status::Open)
            } else {
                Role::Moving
            },
        },
    })
}

/// What can be wrong with such a transfer by itself.
fn check_alone(event: &Transfer) -> Result<(), Outcome> {
    refuse(
        event.debit_account_id == 0,
        Outcome::DebitAccountIdMustNotBeZero,
    )?;
    refuse(
        event.debit_account_id == ID_MAX,
        Outcome::DebitAccountIdMustNotBeIntMax,
    )?;
    refuse(
        event.credit_account_id == 0,
        Outcome::CreditAccountIdMustNotBeZero,
    )?;
    refuse(
        event.credit_account_id == ID_MAX,
        Outcome::CreditAccountIdMustNotBeIntMax,
    )?;
    refuse(
        event.debit_account_id == event.credit_account_id,
        Outcome::AccountsMustBeDifferent,
    )?;
    refuse(event.pending_id != 0, Outcome::PendingIdMustBeZero)?;
    refuse(
        event.timeout != 0 && !event.is_pending(),
        Outcome::TimeoutReservedForPendingTransfer,
    )?;
    refuse(event.ledger == 0, Outcome::LedgerMustNotBeZero)?;
    refuse(event.code == 0, Outcome::CodeMustNotBeZero)
}

/// What can keep its accounts from taking it.
fn check_sides(transfer: &Transfer, debit: &Account, credit: &Account) -> Result<(), Outcome> {
    refuse(
        debit.ledger != credit.ledger,
        Outcome::AccountsMustHaveTheSameLedger,
    )?;
    refuse(
        transfer.ledger != debit.ledger,
        Outcome::TransferMustHaveTheSameLedgerAsAccounts,
    )?;
    refuse(
        debit.has(Account::CLOSED),
        Outcome::DebitAccountAlreadyClosed,
    )?;
    refuse(
        credit.has(Account::CLOSED),
        Outcome::CreditAccountAlreadyClosed,
    )?;
    check_sums(transfer, debit, credit)?;
    refuse(
        transfer.timeout != 0 && transfer.expires_at() > TIMESTAMP_MAX,
        Outcome::OverflowsTimeout,
    )?;
    check_limits(transfer, debit, credit)
}

/// Which sum of the accounts would pass the greatest.
fn check_sums(transfer: &Transfer, debit: &Account, credit: &Account) -> Result<(), Outcome> {
    let room = AMOUNT_MAX - transfer.amount;
    refuse(
        transfer.is_pending() && debit.debits_pending > room,
        Outcome::OverflowsDebitsPending,
    )?;
    refuse(
        transfer.is_pending() && credit.credits_pending > room,
        Outcome::OverflowsCreditsPending,
    )?;
    refuse(debit.debits_posted > room, Outcome::OverflowsDebitsPosted)?;
    refuse(
        credit.credits_posted > room,
        Outcome::OverflowsCreditsPosted,
    )?;
    refuse(
        debit.debits_pending + debit.debits_posted > room,
        Outcome::OverflowsDebits,
    )?;
    refuse(
        credit.credits_pending + credit.credits_posted > room,
        Outcome::OverflowsCredits,
    )
}

/// Which account would pass its limit. No sum overflows here.
fn check_limits(transfer: &Transfer, debit: &Account, credit: &Account) -> Result<(), Outcome> {
    let debits = debit.debits_pending + debit.debits_posted + transfer.amount;
    let credits = credit.credits_pending + credit.credits_posted + transfer.amount;
    refuse(
        debit.has(Account::DEBITS_MUST_NOT_EXCEED_CREDITS) && debits > debit.credits_posted,
        Outcome::ExceedsCredits,
    )?;
    refuse(
        credit.has(Account::CREDITS_MUST_NOT_EXCEED_DEBITS) && credits > credit.debits_posted,
        Outcome::ExceedsDebits,
    )
}
