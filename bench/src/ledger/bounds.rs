//! Bounds of timestamps and of places.

use super::place::Place;
use std::ops::Range;

/// The least and the greatest timestamp that are asked for. 0 is no bound.
#[derive(Clone, Copy)]
pub struct Bounds {
    pub least: u64,
    pub greatest: u64,
}

impl Bounds {
    /// Neither bound is the greatest number, and the upper one isn't below the lower one.
    pub fn are_valid(&self) -> bool {
        self.least != u64::MAX
            && self.greatest != u64::MAX
            && (self.greatest == 0 || self.least <= self.greatest)
    }

    /// The timestamps within valid bounds.
    pub fn span(&self) -> Span<u64> {
        Span {
            from: (self.least != 0).then_some(self.least),
            before: (self.greatest != 0).then_some(self.greatest + 1),
        }
    }
}

/// Keys from one on, and before another, where they are bounded.
#[derive(Clone, Copy)]
pub struct Span<K> {
    from: Option<K>,
    before: Option<K>,
}

impl<K: Copy + Ord> Span<K> {
    /// The span between what belongs to its bounds.
    pub fn map<L>(self, place: impl Fn(K) -> L) -> Span<L> {
        Span {
            from: self.from.map(&place),
            before: self.before.map(&place),
        }
    }

    /// The part of rows, whose keys rise, with keys in the span.
    pub fn cut<'r, R>(&self, rows: &'r [R], key: impl Fn(&R) -> K) -> &'r [R] {
        let first = |bound: K| rows.partition_point(|row| key(row) < bound);
        let end = self.before.map_or(rows.len(), first);
        let start = self.from.map_or(0, first);
        &rows[start.min(end)..end]
    }
}

impl<T> Span<Place<T>> {
    /// The indexes of so many rows that are in the span.
    pub fn range(&self, count: usize) -> Range<usize> {
        let end = self.before.map_or(count, Place::index);
        let start = self.from.map_or(0, Place::index);
        start.min(end)..end
    }
}
