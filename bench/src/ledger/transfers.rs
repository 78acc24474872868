//! The transfers, and what became of the pending ones and of the ids that failed.

use super::accounts::Sides;
use super::fields::FieldIndex;
use super::hash::hash;
use super::place::Place;
use super::records::Transfer;
use super::sequence::Sequence;
use super::slots::Slots;

/// What became of a pending transfer.
#[derive(Clone, Copy, PartialEq, Eq)]
pub enum Status {
    Open,
    Posted,
    Voided,
    Expired,
}

/// What a transfer does with its amount.
#[derive(Clone, Copy)]
pub enum Role {
    /// It moves it.
    Moving,
    /// It sets it aside, until this becomes of it.
    Pending(Status),
    /// It posts or voids that of the pending transfer at a place.
    Settling(Place<Transfer>),
}

/// What a transfer's record doesn't say.
#[derive(Clone, Copy)]
pub struct Standing {
    pub sides: Sides,
    pub role: Role,
}

/// What a transfer id is used for.
#[derive(Clone, Copy)]
pub enum IdUse {
    /// A transfer at this place.
    Stored(Place<Transfer>),
    /// A transfer that failed for a reason that may pass.
    Failed,
}

/// All transfers.
#[derive(Default)]
pub struct Transfers {
    pub records: Sequence<Transfer>,
    pub index: FieldIndex<Transfer>,
    /// That of the transfer at each place.
    standings: Vec<Standing>,
    failed: FailedIds,
}

impl Transfers {
    /// What an id is used for, if it is in use.
    pub fn id_use(&self, id: u128) -> Option<IdUse> {
        match self.records.find(id) {
            Some(place) => Some(IdUse::Stored(place)),
            None => self.failed.has(id).then_some(IdUse::Failed),
        }
    }

    pub fn standing(&self, place: Place<Transfer>) -> &Standing {
        &self.standings[place.index()]
    }

    /// Says what became of the pending transfer at a place.
    pub fn set_status(&mut self, place: Place<Transfer>, status: Status) {
        self.standings[place.index()].role = Role::Pending(status);
    }

    /// Stores a transfer.
    pub fn push(&mut self, transfer: Transfer, standing: Standing) {
        self.standings.push(standing);
        self.records.push(transfer);
    }

    /// Takes the last transfer away.
    pub fn pop(&mut self) -> Option<(Transfer, Standing)> {
        self.records.pop().zip(self.standings.pop())
    }

    /// Lets an id that isn't in use stay failed.
    pub fn fail(&mut self, id: u128) {
        self.failed.add(id);
    }
}

/// The ids of transfers that failed for a reason that may pass.
#[derive(Default)]
struct FailedIds {
    ids: Vec<u128>,
    places: Slots<u128>,
}

impl FailedIds {
    fn has(&self, id: u128) -> bool {
        let is_sought = |place: Place<_>| self.ids[place.index()] == id;
        self.places.find(hash(id), is_sought).is_some()
    }

    fn add(&mut self, id: u128) {
        self.places.insert(hash(id), Place::after(self.ids.len()));
        self.ids.push(id);
    }
}
