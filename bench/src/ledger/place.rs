//! Places of rows.

use std::cmp::Ordering;
use std::marker::PhantomData;
use std::num::NonZeroU32;

/// The place of a row of type R among those of its kind, in the order in which they were stored.
pub struct Place<R> {
    /// The first row has 1, so that no place at all takes no more room than a place.
    ordinal: NonZeroU32,
    row: PhantomData<fn() -> R>,
}

impl<R> Place<R> {
    /// The place of the row that is stored after so many. The program ends where there is none.
    pub fn after(count: usize) -> Self {
        let ordinal = u32::try_from(count + 1).ok().and_then(NonZeroU32::new);
        Place {
            ordinal: ordinal.expect("there are fewer than 2^32 rows of a kind"),
            row: PhantomData,
        }
    }

    /// How many rows stand before it.
    pub fn index(self) -> usize {
        self.ordinal.get() as usize - 1
    }
}

impl<R> Clone for Place<R> {
    fn clone(&self) -> Self {
        *self
    }
}

impl<R> Copy for Place<R> {}

impl<R> PartialEq for Place<R> {
    fn eq(&self, other: &Self) -> bool {
        self.ordinal == other.ordinal
    }
}

impl<R> Eq for Place<R> {}

impl<R> PartialOrd for Place<R> {
    fn partial_cmp(&self, other: &Self) -> Option<Ordering> {
        Some(self.cmp(other))
    }
}

impl<R> Ord for Place<R> {
    fn cmp(&self, other: &Self) -> Ordering {
        self.ordinal.cmp(&other.ordinal)
    }
}
