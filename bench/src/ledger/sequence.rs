//! Records by rising timestamp, found by their place, their timestamp or their id.

use super::bounds::Span;
use super::hash::hash;
use super::place::Place;
use super::record::Record;
use super::slots::Slots;
use std::ops::{Index, IndexMut};

/// Records by rising timestamp.
///
/// A batch's records have timestamps without a gap, but for events that failed. Each stretch without a gap is noted by
/// its first record, and a timestamp is looked for among those alone.
pub struct Sequence<T> {
    records: Vec<T>,
    stretches: Vec<Stretch>,
    ids: Slots<T>,
}

/// Where a stretch without a gap begins.
struct Stretch {
    timestamp: u64,
    index: usize,
}

impl<T: Record> Sequence<T> {
    pub fn len(&self) -> usize {
        self.records.len()
    }

    /// The records within a span.
    pub fn within(&self, span: Span<Place<T>>) -> &[T] {
        &self.records[span.range(self.len())]
    }

    /// The records that were added after so many, with their places.
    pub fn added_after(&self, count: usize) -> impl Iterator<Item = (Place<T>, &T)> {
        let places = (count..self.len()).map(Place::after);
        places.zip(&self.records[count..])
    }

    /// The place of the record with this id.
    pub fn find(&self, id: u128) -> Option<Place<T>> {
        self.ids.find(hash(id), |place| self[place].id() == id)
    }

    /// The record with this id.
    pub fn get(&self, id: u128) -> Option<&T> {
        self.find(id).map(|place| &self[place])
    }

    /// Adds a record at the end, with an id that no other has and a timestamp above those of all others.
    pub fn push(&mut self, record: T) {
        let index = self.records.len();
        let timestamp = record.timestamp();
        let follows = |last: &Stretch| last.timestamp + (index - last.index) as u64 == timestamp;
        if !self.stretches.last().is_some_and(follows) {
            self.stretches.push(Stretch { timestamp, index });
        }
        self.ids.insert(hash(record.id()), Place::after(index));
        self.records.push(record);
    }

    /// Takes the last record away.
    pub fn pop(&mut self) -> Option<T> {
        let record = self.records.pop()?;
        let index = self.records.len();
        self.ids.remove(hash(record.id()), Place::after(index));
        if self.stretches.last().map(|last| last.index) == Some(index) {
            self.stretches.pop();
        }
        Some(record)
    }

    /// The places of the records with these timestamps.
    pub fn places(&self, timestamps: Span<u64>) -> Span<Place<T>> {
        timestamps.map(|timestamp| Place::after(self.count_before(timestamp)))
    }

    /// How many records have a timestamp below this one.
    fn count_before(&self, timestamp: u64) -> usize {
        let after = self
            .stretches
            .partition_point(|stretch| stretch.timestamp <= timestamp);
        let Some(before) = after.checked_sub(1) else {
            return 0;
        };
        let stretch = &self.stretches[before];
        let end = match self.stretches.get(after) {
            Some(next) => next.index,
            None => self.records.len(),
        };
        let ahead = (timestamp - stretch.timestamp).min((end - stretch.index) as u64);
        stretch.index + ahead as usize
    }
}

impl<T> Default for Sequence<T> {
    fn default() -> Self {
        Sequence {
            records: Vec::new(),
            stretches: Vec::new(),
            ids: Slots::default(),
        }
    }
}

impl<T> Index<Place<T>> for Sequence<T> {
    type Output = T;

    fn index(&self, place: Place<T>) -> &T {
        &self.records[place.index()]
    }
}

impl<T> IndexMut<Place<T>> for Sequence<T> {
    fn index_mut(&mut self, place: Place<T>) -> &mut T {
        &mut self.records[place.index()]
    }
}
