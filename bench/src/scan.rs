//! Workloads over posting lists: each table has a sorted list of timestamps for each value.

use crate::keys::mixed;
use crate::{measure, Measured, Run};
use std::collections::HashMap;

/// A row has the multiples of each of these numbers, under the number as their value.
const STEPS: [u64; 5] = [1, 2, 3, 5, 199];

/// The value whose timestamps alone are read.
const ALONE: u64 = 3;

/// The values whose timestamps are joined: of a union, and of an intersection.
const UNITED: [u64; 2] = [2, 3];
const SHARED: [u64; 2] = [2, 199];

/// How many tables the row of a join has.
const JOINED_TABLES: u64 = 20;

/// How often the first timestamps are read, and how many they are.
const FIRST_ROUNDS: u64 = 10_000;
const FIRST: usize = 10;

/// How often all timestamps are read, and how many they are at most.
const ALL_ROUNDS: u64 = 100;
const ALL: usize = 8_190;

/// Timestamps that come in order.
trait Scan: Iterator<Item = u64> {
    /// Moves the first timestamps to the front of `out`, and tells how many those are.
    fn take_into(&mut self, out: &mut [u64]) -> usize {
        for (taken, place) in out.iter_mut().enumerate() {
            match self.next() {
                Some(timestamp) => *place = timestamp,
                None => return taken,
            }
        }
        out.len()
    }
}

struct Table {
    lists: HashMap<u64, Vec<u64>>,
}

/// The lists of a value in all tables, of which none is empty. Their first timestamps come in order.
struct Prefix<'t, const BACK: bool> {
    lists: Vec<&'t [u64]>,
    /// How many lists are at their end.
    ended: usize,
}

/// The timestamps of both prefixes, each once.
struct Union<'t, const BACK: bool>(Prefix<'t, BACK>, Prefix<'t, BACK>);

/// The timestamps that are in both prefixes.
struct Intersection<'t, const BACK: bool>(Prefix<'t, BACK>, Prefix<'t, BACK>);

pub fn first<const BACK: bool>(run: Run, tables: u64) -> Measured {
    let row = row_of(run.count, tables);
    rounds(FIRST_ROUNDS, FIRST, || Prefix::<BACK>::of(&row, ALONE))
}

pub fn all<const BACK: bool>(run: Run, tables: u64) -> Measured {
    let row = row_of(run.count, tables);
    rounds(ALL_ROUNDS, ALL, || Prefix::<BACK>::of(&row, ALONE))
}

pub fn union<const BACK: bool>(run: Run) -> Measured {
    let row = row_of(run.count, JOINED_TABLES);
    let [left, right] = UNITED;
    rounds(ALL_ROUNDS, ALL, || {
        Union::<BACK>(Prefix::of(&row, left), Prefix::of(&row, right))
    })
}

pub fn intersection<const BACK: bool>(run: Run) -> Measured {
    let row = row_of(run.count, JOINED_TABLES);
    let [left, right] = SHARED;
    rounds(ALL_ROUNDS, ALL, || {
        Intersection::<BACK>(Prefix::of(&row, left), Prefix::of(&row, right))
    })
}

/// Moves the first timestamps of a scan into a slice of this length, so many times.
fn rounds<S: Scan>(rounds: u64, limit: usize, scan: impl Fn() -> S) -> Measured {
    let mut room = vec![0; limit];
    measure(|| {
        let mut sum = 0;
        for _ in 0..rounds {
            let taken = scan().take_into(&mut room);
            for timestamp in &room[..taken] {
                sum = mixed(sum, *timestamp);
            }
        }
        sum
    })
}

/// So many tables of the multiples up to `count`. Each has those above the multiples of the table before.
fn row_of(count: u64, tables: u64) -> Vec<Table> {
    (0..tables)
        .map(|table| {
            let (from, to) = (count * table / tables, count * (table + 1) / tables);
            let multiples = |step: u64| {
                (from / step + 1..=to / step)
                    .map(|place| place * step)
                    .collect()
            };
            Table {
                lists: STEPS.map(|step| (step, multiples(step))).into(),
            }
        })
        .collect()
}

/// Whether the first timestamp comes before the second.
fn is_before<const BACK: bool>(first: u64, second: u64) -> bool {
    if BACK {
        second < first
    } else {
        first < second
    }
}

/// The first timestamp of a list.
fn head<const BACK: bool>(list: &[u64]) -> Option<u64> {
    if BACK { list.last() } else { list.first() }.copied()
}

/// A list without those timestamps that come before this one, by looking ever further from its front.
fn behind<const BACK: bool>(list: &[u64], timestamp: u64) -> &[u64] {
    let at = |place: usize| {
        if BACK {
            list[list.len() - 1 - place]
        } else {
            list[place]
        }
    };
    let mut step = 1;
    while step < list.len() && is_before::<BACK>(at(step), timestamp) {
        step *= 2;
    }
    let end = list.len().min(step + 1);
    if BACK {
        let part = &list[list.len() - end..];
        &list[..list.len() - end + part.partition_point(|other| *other <= timestamp)]
    } else {
        &list[list[..end].partition_point(|other| *other < timestamp)..]
    }
}

impl<'t, const BACK: bool> Prefix<'t, BACK> {
    fn of(row: &'t [Table], value: u64) -> Self {
        let mut lists: Vec<&[u64]> = Vec::with_capacity(row.len());
        for table in row {
            if let Some(list) = table.lists.get(&value) {
                lists.push(list);
            }
        }
        let mut prefix = Prefix { lists, ended: 0 };
        prefix.lists.retain(|list| !list.is_empty());
        if BACK {
            prefix.lists.reverse();
        }
        prefix.lists.sort_by(|list, other| {
            let (first, second) = (head::<BACK>(list), head::<BACK>(other));
            if BACK {
                second.cmp(&first)
            } else {
                first.cmp(&second)
            }
        });
        prefix
    }

    /// Puts the first list, whose first timestamp has changed, where it belongs.
    fn settle(&mut self) {
        let lists = &mut self.lists[self.ended..];
        let Some(timestamp) = head::<BACK>(lists[0]) else {
            self.ended += 1;
            return;
        };
        let mut place = 0;
        while let Some(other) = lists.get(place + 1) {
            if !head::<BACK>(other).is_some_and(|other| is_before::<BACK>(other, timestamp)) {
                return;
            }
            lists.swap(place, place + 1);
            place += 1;
        }
    }

    fn peek(&self) -> Option<u64> {
        head::<BACK>(self.lists.get(self.ended)?)
    }

    /// Takes out the timestamps that come before this one.
    fn seek(&mut self, timestamp: u64) {
        while self
            .peek()
            .is_some_and(|first| is_before::<BACK>(first, timestamp))
        {
            let list = &mut self.lists[self.ended];
            *list = behind::<BACK>(list, timestamp);
            self.settle();
        }
    }
}

impl<const BACK: bool> Scan for Prefix<'_, BACK> {
    /// What one list alone has next is moved in one loop.
    fn take_into(&mut self, out: &mut [u64]) -> usize {
        let mut taken = 0;
        while taken < out.len() {
            let Some(timestamp) = self.next() else {
                return taken;
            };
            out[taken] = timestamp;
            taken += 1;
            let others = self.lists.get(self.ended + 1);
            let until = others.and_then(|other| head::<BACK>(other));
            if let Some(list) = self.lists.get_mut(self.ended) {
                taken += take_before::<BACK>(list, until, &mut out[taken..]);
                self.settle();
            }
        }
        taken
    }
}

impl<const BACK: bool> Scan for Union<'_, BACK> {}

impl<const BACK: bool> Scan for Intersection<'_, BACK> {}

/// Moves the first timestamps of a list to the front of `out`, as long as they come before another one.
fn take_before<const BACK: bool>(list: &mut &[u64], until: Option<u64>, out: &mut [u64]) -> usize {
    let mut left = *list;
    let mut taken = 0;
    while taken < out.len() {
        let first = if BACK { left.split_last() } else { left.split_first() };
        let Some((timestamp, others)) = first else {
            break;
        };
        if until.is_some_and(|until| !is_before::<BACK>(*timestamp, until)) {
            break;
        }
        out[taken] = *timestamp;
        taken += 1;
        left = others;
    }
    *list = left;
    taken
}

impl<const BACK: bool> Iterator for Prefix<'_, BACK> {
    type Item = u64;

    fn next(&mut self) -> Option<u64> {
        let list = self.lists.get_mut(self.ended)?;
        let (first, others) = if BACK {
            list.split_last()
        } else {
            list.split_first()
        }?;
        *list = others;
        self.settle();
        Some(*first)
    }
}

impl<const BACK: bool> Iterator for Union<'_, BACK> {
    type Item = u64;

    fn next(&mut self) -> Option<u64> {
        let (Some(left), Some(right)) = (self.0.peek(), self.1.peek()) else {
            return self.0.next().or_else(|| self.1.next());
        };
        if is_before::<BACK>(right, left) {
            return self.1.next();
        }
        if left == right {
            self.1.next();
        }
        self.0.next()
    }
}

impl<const BACK: bool> Iterator for Intersection<'_, BACK> {
    type Item = u64;

    fn next(&mut self) -> Option<u64> {
        loop {
            let (left, right) = (self.0.peek()?, self.1.peek()?);
            if left == right {
                self.0.next();
                return self.1.next();
            }
            if is_before::<BACK>(left, right) {
                self.0.seek(right);
            } else {
                self.1.seek(left);
            }
        }
    }
}
