//! What storing a transfer changes, and what taking it back does.

use super::place::Place;
use super::records::Transfer;
use super::transfers::{Role, Standing, Status};
use super::Ledger;

/// A transfer that is ok, as it is to be stored.
pub struct Accepted {
    pub transfer: Transfer,
    pub standing: Standing,
}

impl Ledger {
    pub(super) fn add_transfer(&mut self, accepted: Accepted) {
        let Accepted { transfer, standing } = accepted;
        let sides = standing.sides;
        match standing.role {
            Role::Moving => self.accounts.post(sides, transfer.amount),
            Role::Pending(_) => self.accounts.set_aside(sides, &transfer),
            Role::Settling(pending) if transfer.is_post() => {
                self.settle(pending, Status::Posted);
                self.accounts.post(sides, transfer.amount);
            }
            Role::Settling(pending) => self.settle(pending, Status::Voided),
        }
        self.accounts.note_balances(sides, transfer.timestamp);
        self.transfers.push(transfer, standing);
    }

    /// Takes the last transfer back.
    pub(super) fn take_back_transfer(&mut self) {
        let Some((transfer, Standing { sides, role })) = self.transfers.pop() else {
            return;
        };
        self.accounts.forget_balances(sides);
        match role {
            Role::Moving => self.accounts.take_back_post(sides, transfer.amount),
            Role::Pending(_) => self.accounts.give_back(sides, &transfer),
            Role::Settling(pending) => {
                if transfer.is_post() {
                    self.accounts.take_back_post(sides, transfer.amount);
                }
                self.reopen(pending);
            }
        }
    }

    /// Ends the pending transfer at a place.
    pub(super) fn settle(&mut self, place: Place<Transfer>, status: Status) {
        self.transfers.set_status(place, status);
        let sides = self.transfers.standing(place).sides;
        self.accounts
            .give_back(sides, &self.transfers.records[place]);
    }

    /// Opens the pending transfer at a place again.
    fn reopen(&mut self, place: Place<Transfer>) {
        self.transfers.set_status(place, Status::Open);
        let sides = self.transfers.standing(place).sides;
        self.accounts
            .set_aside(sides, &self.transfers.records[place]);
    }

    /// Lists the transfers that were added, each behind those that are listed, and awaits the expiry of those that are open.
    pub(super) fn list_transfers(&mut self) {
        self.transfers.index.update(&self.transfers.records);
        for (place, transfer) in self.transfers.records.added_after(self.listed) {
            let standing = self.transfers.standing(place);
            self.accounts.list(standing.sides, place);
            match standing.role {
                Role::Pending(Status::Open) => self.expiries.await_that_of(transfer, place),
                Role::Settling(pending) => self
                    .expiries
                    .forget_that_of(&self.transfers.records[pending], pending),
                _ => (),
            }
        }
        self.accounts.list_balances();
        self.listed = self.transfers.records.len();
    }
}
