//! Posts and voids of pending transfers.

use super::refuse;
use super::repeated::check_id;
use crate::ledger::limits::{AMOUNT_MAX, ID_MAX};
use crate::ledger::outcome::Outcome;
use crate::ledger::records::{Account, Transfer};
use crate::ledger::store::Accepted;
use crate::ledger::transfers::{Role, Standing, Status};
use crate::ledger::Ledger;

/// Judges a post or void.
pub fn judge_settling(
    ledger: &Ledger,
    timestamp: u64,
    event: &Transfer,
) -> Result<Accepted, Outcome> {
    check_alone(event)?;
    let Some(place) = ledger.transfers.records.find(event.pending_id) else {
        check_id(ledger, event)?;
        return Err(Outcome::PendingTransferNotFound);
    };
    let pending = &ledger.transfers.records[place];
    let filled = filled_in(pending, event);
    check_id(ledger, &filled)?;
    let Standing { sides, role } = *ledger.transfers.standing(place);
    let Role::Pending(status) = role else {
        return Err(Outcome::PendingTransferNotPending);
    };
    check_fit(pending, &filled)?;
    check_status(pending, status, timestamp)?;
    if event.is_post() {
        let is_closed = |place| ledger.accounts.records[place].has(Account::CLOSED);
        refuse(is_closed(sides.debit), Outcome::DebitAccountAlreadyClosed)?;
        refuse(is_closed(sides.credit), Outcome::CreditAccountAlreadyClosed)?;
    }
    Ok(Accepted {
        transfer: Transfer {
            timestamp,
            ..filled
        },
        standing: Standing {
            sides,
            role: Role::Settling(place),
        },
    })
}

/// What can be wrong with a post or void by itself.
fn check_alone(event: &Transfer) -> Result<(), Outcome> {
    refuse(event.pending_id == 0, Outcome::PendingIdMustNotBeZero)?;
    refuse(
        event.pending_id == ID_MAX,
        Outcome::PendingIdMustNotBeIntMax,
    )?;
    refuse(
        event.pending_id == event.id,
        Outcome::PendingIdMustBeDifferent,
    )?;
    refuse(
        event.timeout != 0,
        Outcome::TimeoutReservedForPendingTransfer,
    )
}

/// A post or void with what it leaves out, which is 0, filled in from its pending transfer. The whole pending amount is
/// asked for by the greatest amount in a post, and by 0 in a void.
fn filled_in(pending: &Transfer, event: &Transfer) -> Transfer {
    let whole = if event.is_post() { AMOUNT_MAX } else { 0 };
    Transfer {
        debit_account_id: own_or(event.debit_account_id, pending.debit_account_id),
        credit_account_id: own_or(event.credit_account_id, pending.credit_account_id),
        amount: if event.amount == whole {
            pending.amount
        } else {
            event.amount
        },
        user_data_128: own_or(event.user_data_128, pending.user_data_128),
        user_data_64: own_or(event.user_data_64, pending.user_data_64),
        user_data_32: own_or(event.user_data_32, pending.user_data_32),
        ledger: own_or(event.ledger, pending.ledger),
        code: own_or(event.code, pending.code),
        ..*event
    }
}

fn own_or<V: Default + PartialEq>(own: V, pending: V) -> V {
    if own == V::default() {
        pending
    } else {
        own
    }
}

/// Whether a post or void, filled in, fits its pending transfer.
fn check_fit(pending: &Transfer, filled: &Transfer) -> Result<(), Outcome> {
    refuse(
        filled.debit_account_id != pending.debit_account_id,
        Outcome::PendingTransferHasDifferentDebitAccountId,
    )?;
    refuse(
        filled.credit_account_id != pending.credit_account_id,
        Outcome::PendingTransferHasDifferentCreditAccountId,
    )?;
    refuse(
        filled.ledger != pending.ledger,
        Outcome::PendingTransferHasDifferentLedger,
    )?;
    refuse(
        filled.code != pending.code,
        Outcome::PendingTransferHasDifferentCode,
    )?;
    refuse(
        filled.amount > pending.amount,
        Outcome::ExceedsPendingTransferAmount,
    )?;
    refuse(
        filled.is_void() && filled.amount < pending.amount,
        Outcome::PendingTransferHasDifferentAmount,
    )
}

/// Whether a pending transfer is open at a moment. Its time may be over before a pulse says so.
fn check_status(pending: &Transfer, status: Status, moment: u64) -> Result<(), Outcome> {
    let is_overdue = pending.timeout != 0 && pending.expires_at() <= moment;
    match status {
        Status::Posted => Err(Outcome::PendingTransferAlreadyPosted),
        Status::Voided => Err(Outcome::PendingTransferAlreadyVoided),
        Status::Expired => Err(Outcome::PendingTransferExpired),
        Status::Open => refuse(is_overdue, Outcome::PendingTransferExpired),
    }
}
