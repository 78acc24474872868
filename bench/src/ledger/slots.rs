//! Where rows stand, by the hash of what they are found by.

use super::place::Place;

/// How many slots there are at first. Their number is always a power of two.
const FIRST: usize = 16;

/// Slots of eight bytes, half of which at least are free.
///
/// A row's slot is the first that was free from its home on, and past the end from the start on. So it stands between
/// its home and the next free slot.
pub struct Slots<R> {
    slots: Vec<Option<Slot<R>>>,
    taken: usize,
}

/// A part of a hash, and the place of a row of type R.
struct Slot<R> {
    hash: u32,
    place: Place<R>,
}

impl<R> Slots<R> {
    /// Of the places with this hash the one that is looked for.
    pub fn find(&self, hash: u32, is_sought: impl Fn(Place<R>) -> bool) -> Option<Place<R>> {
        let mut at = self.home(hash);
        while let Some(slot) = self.slots[at] {
            if slot.hash == hash && is_sought(slot.place) {
                return Some(slot.place);
            }
            at = self.next(at);
        }
        None
    }

    /// Adds a place.
    pub fn insert(&mut self, hash: u32, place: Place<R>) {
        if 2 * self.taken >= self.slots.len() {
            self.grow();
        }
        self.taken += 1;
        self.put(Slot { hash, place });
    }

    /// Takes a place away that was added with this hash.
    pub fn remove(&mut self, hash: u32, place: Place<R>) {
        let mut at = self.home(hash);
        while self.slots[at].is_some_and(|slot| slot.place != place) {
            at = self.next(at);
        }
        self.taken -= 1;
        self.free(at);
    }

    /// Frees a slot, and moves those behind it nearer to their homes.
    fn free(&mut self, mut gap: usize) {
        let mut at = self.next(gap);
        while let Some(slot) = self.slots[at] {
            let way_from = |start: usize| at.wrapping_sub(start) & (self.slots.len() - 1);
            if way_from(self.home(slot.hash)) >= way_from(gap) {
                self.slots[gap] = Some(slot);
                gap = at;
            }
            at = self.next(at);
        }
        self.slots[gap] = None;
    }

    /// Doubles the number of slots.
    fn grow(&mut self) {
        let larger = vec![None; 2 * self.slots.len()];
        let smaller = std::mem::replace(&mut self.slots, larger);
        for slot in smaller.into_iter().flatten() {
            self.put(slot);
        }
    }

    fn put(&mut self, slot: Slot<R>) {
        let mut at = self.home(slot.hash);
        while self.slots[at].is_some() {
            at = self.next(at);
        }
        self.slots[at] = Some(slot);
    }

    /// Where a hash stands if that slot is free. Homes rise with the hashes, so that larger slots are filled from their
    /// start to their end.
    fn home(&self, hash: u32) -> usize {
        ((u64::from(hash) * self.slots.len() as u64) >> 32) as usize
    }

    fn next(&self, at: usize) -> usize {
        (at + 1) & (self.slots.len() - 1)
    }
}

impl<R> Default for Slots<R> {
    fn default() -> Self {
        Slots {
            slots: vec![None; FIRST],
            taken: 0,
        }
    }
}

impl<R> Clone for Slot<R> {
    fn clone(&self) -> Self {
        *self
    }
}

impl<R> Copy for Slot<R> {}
