//! The accounts: their records with the sums of now, their transfers and their history.

use super::fields::FieldIndex;
use super::place::Place;
use super::records::{Account, Transfer};
use super::sequence::Sequence;

/// The places of the two accounts of a transfer.
#[derive(Clone, Copy)]
pub struct Sides {
    pub debit: Place<Account>,
    pub credit: Place<Account>,
}

/// The sums of an account right after a transfer.
#[derive(Clone, Copy)]
pub struct Balance {
    pub timestamp: u64,
    pub debits_pending: u128,
    pub debits_posted: u128,
    pub credits_pending: u128,
    pub credits_posted: u128,
}

/// The transfers of an account, by rising places.
#[derive(Default)]
pub struct Activity {
    /// Those that debit it.
    pub debits: Vec<Place<Transfer>>,
    /// Those that credit it.
    pub credits: Vec<Place<Transfer>>,
    /// Its sums after each of both, where it keeps history.
    pub history: Vec<Balance>,
}

/// All accounts.
#[derive(Default)]
pub struct Accounts {
    /// Each with its sums of now, and marked as closed while it is.
    pub records: Sequence<Account>,
    pub index: FieldIndex<Account>,
    activities: Vec<Activity>,
    /// The balances that histories don't have yet.
    noted: Vec<(Place<Account>, Balance)>,
}

impl Accounts {
    /// The transfers of the account at a place.
    pub fn activity(&self, place: Place<Account>) -> &Activity {
        &self.activities[place.index()]
    }

    /// Brings the index up to date, and makes room for the transfers of new accounts.
    pub fn update(&mut self) {
        self.index.update(&self.records);
        self.activities
            .resize_with(self.records.len(), Activity::default);
    }

    /// Lists a transfer behind those that are listed.
    pub fn list(&mut self, sides: Sides, place: Place<Transfer>) {
        self.activities[sides.debit.index()].debits.push(place);
        self.activities[sides.credit.index()].credits.push(place);
    }

    /// Adds the balances that were noted to their histories.
    pub fn list_balances(&mut self) {
        for (place, balance) in self.noted.drain(..) {
            self.activities[place.index()].history.push(balance);
        }
    }

    /// Sets the amount of a pending transfer aside, and closes the accounts that it closes.
    pub fn set_aside(&mut self, sides: Sides, pending: &Transfer) {
        let debit = &mut self.records[sides.debit];
        debit.debits_pending += pending.amount;
        if pending.has(Transfer::CLOSING_DEBIT) {
            debit.flags |= Account::CLOSED;
        }
        let credit = &mut self.records[sides.credit];
        credit.credits_pending += pending.amount;
        if pending.has(Transfer::CLOSING_CREDIT) {
            credit.flags |= Account::CLOSED;
        }
    }

    /// Gives the amount of a pending transfer back, and opens the accounts that it closed. None of them was stored as
    /// closed, or else it would have no transfers.
    pub fn give_back(&mut self, sides: Sides, pending: &Transfer) {
        let debit = &mut self.records[sides.debit];
        debit.debits_pending -= pending.amount;
        if pending.has(Transfer::CLOSING_DEBIT) {
            debit.flags &= !Account::CLOSED;
        }
        let credit = &mut self.records[sides.credit];
        credit.credits_pending -= pending.amount;
        if pending.has(Transfer::CLOSING_CREDIT) {
            credit.flags &= !Account::CLOSED;
        }
    }

    pub fn post(&mut self, sides: Sides, amount: u128) {
        self.records[sides.debit].debits_posted += amount;
        self.records[sides.credit].credits_posted += amount;
    }

    pub fn take_back_post(&mut self, sides: Sides, amount: u128) {
        self.records[sides.debit].debits_posted -= amount;
        self.records[sides.credit].credits_posted -= amount;
    }

    /// Notes the sums right after a transfer of those of its accounts that keep history.
    pub fn note_balances(&mut self, sides: Sides, timestamp: u64) {
        for place in [sides.debit, sides.credit] {
            let account = &self.records[place];
            let before = self.noted.len();
            // no branch here, which could not be foretold
            self.noted.push((place, Balance::of(account, timestamp)));
            self.noted
                .truncate(before + usize::from(account.has(Account::HISTORY)));
        }
    }

    /// Takes the balances away that were noted last, for a transfer between these accounts.
    pub fn forget_balances(&mut self, sides: Sides) {
        for place in [sides.debit, sides.credit] {
            if self.records[place].has(Account::HISTORY) {
                self.noted.pop();
            }
        }
    }
}

impl Balance {
    fn of(account: &Account, timestamp: u64) -> Self {
        Balance {
            timestamp,
            debits_pending: account.debits_pending,
            debits_posted: account.debits_posted,
            credits_pending: account.credits_pending,
            credits_posted: account.credits_posted,
        }
    }
}
