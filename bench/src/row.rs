//! Workloads over rows of sorted tables, newest first: look-ups, copies of references, and merged tables put in place.

use crate::keys::{key_number, mixed, spread_key, Generator, Key};
use crate::{measure, Measured, Run};

const FINDS: u64 = 100_000;

/// How many times the references are copied, and how many they are.
const COPIES: u64 = 10_000;
const ROWS: usize = 21;
const TABLES: u64 = 20;

/// How many references a row has room for.
const ROOM: usize = 64;

/// Rows sorted by key, whose values are the keys' timestamps.
struct Table {
    keys: Vec<Key>,
    values: Vec<u64>,
    level: u32,
}

/// References to the tables of a row, newest first.
#[derive(Clone, Copy)]
struct Row<'t> {
    tables: [Option<&'t Table>; ROOM],
    len: usize,
}

/// Which keys are looked up.
#[derive(Clone, Copy)]
pub enum Wanted {
    Hit,
    MissInside,
    MissOutside,
}

pub fn find(run: Run, tables: u64, wanted: Wanted) -> Measured {
    let tables = row_tables(run.count, tables);
    let row = Row::of(&tables);
    let count = run.count * tables.len() as u64;
    let mut generator = Generator::new(run.seed);
    let keys: Vec<Key> = (0..FINDS)
        .map(|_| spread_key(wanted.number(generator.number(), count)))
        .collect();
    measure(|| {
        let mut sum = 0;
        for key in &keys {
            if let Some(value) = row.find(key) {
                sum = mixed(sum, key_number(key).wrapping_add(*value));
            }
        }
        sum
    })
}

pub fn copy(run: Run) -> Measured {
    let tables = row_tables(run.count, TABLES);
    let rows = [Row::of(&tables); ROWS];
    let mut copy = [Row::of(&[]); ROWS];
    measure(|| {
        for _ in 0..COPIES {
            for (to, from) in copy.iter_mut().zip(&rows) {
                to.copy_from(from);
            }
        }
        copy.iter().fold(0, |sum, row| mixed(sum, row.len as u64))
    })
}

pub fn install(run: Run) -> Measured {
    let tables = row_tables(1, 5);
    let mut rows = vec![Row::of(&tables); run.count as usize];
    let mut outputs: Vec<Table> = rows
        .iter()
        .map(|_| Table::of([2, 4].into_iter(), 1))
        .collect();
    let mut registry = Vec::new();
    let measured = measure(|| {
        for row in &mut rows {
            if let Some(output) = outputs.pop() {
                // what was pushed stays for good
                let pushed: &Table = Box::leak(Box::new(output));
                registry.push(pushed);
                row.install(&tables[1], &tables[0], pushed);
            }
        }
        0
    });
    Measured {
        checksum: rows.iter().fold(0, |sum, row| mixed(sum, row.len as u64)),
        ..measured
    }
}

impl Table {
    /// The table of the keys of these numbers, which rise.
    fn of(numbers: impl Iterator<Item = u64>, level: u32) -> Table {
        let keys: Vec<Key> = numbers.map(spread_key).collect();
        let values = keys.iter().map(|key| key.timestamp).collect();
        Table {
            keys,
            values,
            level,
        }
    }

    fn find(&self, key: &Key) -> Option<&u64> {
        let (first, last) = (self.keys.first()?, self.keys.last()?);
        if key < first || last < key {
            return None;
        }
        let place = self.keys.binary_search(key).ok()?;
        Some(&self.values[place])
    }
}

impl<'t> Row<'t> {
    /// The row of these tables, of which the last is the newest.
    fn of(tables: &'t [Table]) -> Row<'t> {
        let mut row = Row {
            tables: [None; ROOM],
            len: tables.len(),
        };
        for (place, table) in row.tables.iter_mut().zip(tables.iter().rev()) {
            *place = Some(table);
        }
        row
    }

    fn find(&self, key: &Key) -> Option<&'t u64> {
        self.tables[..self.len]
            .iter()
            .flatten()
            .find_map(|table| table.find(key))
    }

    fn copy_from(&mut self, other: &Row<'t>) {
        self.tables[..other.len].copy_from_slice(&other.tables[..other.len]);
        self.len = other.len;
    }

    /// Puts a merged table in the place of two that stand next to each other.
    fn install(&mut self, newer: &Table, older: &Table, merged: &'t Table) -> bool {
        let is = |place: usize, table: &Table| {
            self.tables[place].is_some_and(|other| std::ptr::eq(other, table))
        };
        let Some(at) = (1..self.len).find(|at| is(at - 1, newer) && is(*at, older)) else {
            return false;
        };
        if self.tables[at].is_some_and(|table| table.level + 1 != merged.level) {
            return false;
        }
        self.tables[at - 1] = Some(merged);
        self.tables.copy_within(at + 1..self.len, at);
        self.len -= 1;
        true
    }
}

impl Wanted {
    /// The number of a key of this kind, for tables of so many keys of even numbers.
    fn number(self, random: u64, count: u64) -> u64 {
        let even = 2 * (1 + random % count);
        match self {
            Wanted::Hit => even,
            Wanted::MissInside => even - 1,
            Wanted::MissOutside => even + 2 * count,
        }
    }
}

/// So many tables of so many keys of even numbers, which take turns, oldest first.
fn row_tables(count: u64, tables: u64) -> Vec<Table> {
    (0..tables)
        .map(|table| Table::of((0..count).map(|place| 2 * (1 + place * tables + table)), 0))
        .collect()
}
