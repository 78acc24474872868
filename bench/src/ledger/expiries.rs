//! The order in which pending transfers expire.

use super::place::Place;
use super::records::Transfer;
use std::collections::BTreeSet;

/// The open pending transfers with a timeout, by when they expire, and where that is the same by their places.
#[derive(Default)]
pub struct Expiries {
    open: BTreeSet<(u64, Place<Transfer>)>,
}

impl Expiries {
    /// Awaits the expiry of the pending transfer at a place, where it has a timeout.
    pub fn await_that_of(&mut self, pending: &Transfer, place: Place<Transfer>) {
        if pending.timeout != 0 {
            self.open.insert((pending.expires_at(), place));
        }
    }

    /// Awaits it no longer.
    pub fn forget_that_of(&mut self, pending: &Transfer, place: Place<Transfer>) {
        if pending.timeout != 0 {
            self.open.remove(&(pending.expires_at(), place));
        }
    }

    /// How many are due at a moment, counted up to `most`.
    pub fn due_count(&self, moment: u64, most: usize) -> usize {
        let due = self.open.iter().take(most);
        due.take_while(|(expires_at, _)| *expires_at <= moment)
            .count()
    }

    /// Takes the place of that away which expires first.
    pub fn pop_first(&mut self) -> Option<Place<Transfer>> {
        self.open.pop_first().map(|(_, place)| place)
    }
}
