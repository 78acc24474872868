//! Workloads over sorted vectors: the keys in one, their entries in another; and over the vectors of rows that they are made
//! from.

use crate::keys::{key_number, mixed, spread_key, Generator, Key, Payload};
use crate::{measure, Measured, Run};
use std::cmp::Ordering;
use std::collections::BTreeMap;

const FINDS: u64 = 1_000_000;
const SEEKS: u64 = 10_000;
const STEPS: usize = 100;

/// How many rows a log gets before it is cleared.
const LOGGED: usize = 8_190;

/// Rows sorted by key. Each is a value, or None for a tombstone.
struct Table<V> {
    keys: Vec<Key>,
    entries: Vec<Option<V>>,
}

/// Which keys the tables of a merge have.
#[derive(Clone, Copy)]
pub enum Keys {
    Disjoint,
    Interleaved,
    HalfShared,
}

pub fn seal<V: Payload>(run: Run) -> Measured {
    let mut generator = Generator::new(run.seed);
    let mut map = BTreeMap::new();
    for _ in 0..run.count {
        let key = generator.key();
        map.insert(key, Some(V::of(key.timestamp)));
    }
    let mut table = Table::with_room(0);
    let measured = measure(|| {
        table = sealed(&map);
        0
    });
    with_rows(measured, &table)
}

pub fn merge<V: Payload>(run: Run, tables: u64, keys: Keys) -> Measured {
    let tables: Vec<Table<V>> = (0..tables)
        .map(|table| merge_input(run, tables, table, keys))
        .collect();
    let newest_first: Vec<&Table<V>> = tables.iter().collect();
    let mut merged = Table::with_room(0);
    let measured = measure(|| {
        merged = merged_tables(&newest_first, false);
        0
    });
    with_rows(measured, &merged)
}

pub fn find_hit<V: Payload>(run: Run) -> Measured {
    let table = even_table::<V>(run);
    find_all(&table, run, |number| 2 * (1 + number % run.count))
}

pub fn find_miss_inside<V: Payload>(run: Run) -> Measured {
    let table = even_table::<V>(run);
    find_all(&table, run, |number| 2 * (1 + number % run.count) - 1)
}

pub fn find_miss_outside<V: Payload>(run: Run) -> Measured {
    let table = even_table::<V>(run);
    find_all(&table, run, |number| {
        2 * (1 + run.count) + number % run.count
    })
}

pub fn seek_up<V: Payload>(run: Run) -> Measured {
    let table = even_table::<V>(run);
    let mut generator = Generator::new(run.seed);
    measure(|| {
        let mut sum = 0;
        for _ in 0..SEEKS {
            let key = spread_key(generator.number() % (2 * run.count));
            let from = table.keys.partition_point(|other| *other < key);
            let rows = table.keys[from..].iter().zip(&table.entries[from..]);
            sum = sum_of(sum, rows.take(STEPS));
        }
        sum
    })
}

pub fn seek_down<V: Payload>(run: Run) -> Measured {
    let table = even_table::<V>(run);
    let mut generator = Generator::new(run.seed);
    measure(|| {
        let mut sum = 0;
        for _ in 0..SEEKS {
            let key = spread_key(generator.number() % (2 * run.count));
            let to = table.keys.partition_point(|other| *other <= key);
            let rows = table.keys[..to].iter().zip(&table.entries[..to]).rev();
            sum = sum_of(sum, rows.take(STEPS));
        }
        sum
    })
}

pub fn push_log<V: Payload>(run: Run) -> Measured {
    let values = random_values(run);
    let mut log = Vec::new();
    let measured = measure(|| {
        for _ in 0..run.count {
            fill::<V>(&mut log, &values);
        }
        0
    });
    Measured {
        checksum: checksum(&sealed_log(&mut log)),
        ..measured
    }
}

pub fn seal_log<V: Payload>(run: Run) -> Measured {
    let values = random_values(run);
    let mut log = Vec::new();
    let mut table = Table::with_room(0);
    let mut whole = Measured::default();
    for _ in 0..run.count {
        fill::<V>(&mut log, &values);
        let measured = measure(|| {
            table = sealed_log(&mut log);
            0
        });
        whole.nanoseconds += measured.nanoseconds;
        whole.worst = whole.worst.max(measured.worst);
        whole.checksum = mixed(whole.checksum, checksum(&table));
    }
    whole
}

/// The values of a log's rows.
fn random_values(run: Run) -> Vec<u64> {
    let mut generator = Generator::new(run.seed);
    (0..LOGGED).map(|_| generator.number()).collect()
}

/// Clears a log, and pushes a row for each value. Their timestamps rise.
fn fill<V: Payload>(log: &mut Vec<(Key, Option<V>)>, values: &[u64]) {
    log.clear();
    for (timestamp, value) in (0..).zip(values) {
        let key = Key {
            value: u128::from(*value),
            timestamp,
        };
        log.push((key, Some(V::of(timestamp))));
    }
}

/// The rows of a log as a table.
fn sealed_log<V: Payload>(log: &mut [(Key, Option<V>)]) -> Table<V> {
    log.sort_by_key(|row| row.0);
    let mut table = Table::with_room(log.len());
    for (key, entry) in log {
        table.push(*key, *entry);
    }
    table
}

impl<V: Copy> Table<V> {
    fn with_room(rows: usize) -> Self {
        Table {
            keys: Vec::with_capacity(rows),
            entries: Vec::with_capacity(rows),
        }
    }

    fn push(&mut self, key: Key, entry: Option<V>) {
        self.keys.push(key);
        self.entries.push(entry);
    }

    fn find(&self, key: &Key) -> Option<Option<&V>> {
        match self.keys.binary_search(key) {
            Ok(place) => Some(self.entries[place].as_ref()),
            Err(_) => None,
        }
    }
}

fn sealed<V: Payload>(map: &BTreeMap<Key, Option<V>>) -> Table<V> {
    let mut table = Table::with_room(map.len());
    for (key, entry) in map {
        table.push(*key, *entry);
    }
    table
}

fn merged_tables<V: Payload>(tables: &[&Table<V>], bottom: bool) -> Table<V> {
    let mut merged = Table::with_room(tables.iter().map(|table| table.keys.len()).sum());
    let mut places = vec![0; tables.len()];
    loop {
        let mut least: Option<(usize, Key)> = None;
        for (number, table) in tables.iter().enumerate() {
            if let Some(key) = table.keys.get(places[number]) {
                if least.is_none_or(|(_, other)| key.cmp(&other) == Ordering::Less) {
                    least = Some((number, *key));
                }
            }
        }
        let Some((newest, key)) = least else {
            return merged;
        };
        let entry = tables[newest].entries[places[newest]];
        if !bottom || entry.is_some() {
            merged.push(key, entry);
        }
        for (number, table) in tables.iter().enumerate().skip(newest) {
            if table.keys.get(places[number]) == Some(&key) {
                places[number] += 1;
            }
        }
    }
}

/// A table of so many keys of even numbers, from 2 on.
fn even_table<V: Payload>(run: Run) -> Table<V> {
    let mut map = BTreeMap::new();
    for place in 0..run.count {
        let key = spread_key(2 * (1 + place));
        map.insert(key, Some(V::of(key.timestamp)));
    }
    sealed(&map)
}

/// One of the tables of a merge.
fn merge_input<V: Payload>(run: Run, tables: u64, table: u64, keys: Keys) -> Table<V> {
    let mut map = BTreeMap::new();
    for place in 0..run.count {
        let number = match keys {
            Keys::Disjoint => table * run.count + place,
            Keys::HalfShared if place % 2 == 0 => place * tables,
            _ => place * tables + table,
        };
        map.insert(spread_key(number), Some(V::of(number ^ table)));
    }
    sealed(&map)
}

fn find_all<V: Payload>(table: &Table<V>, run: Run, wanted: impl Fn(u64) -> u64) -> Measured {
    let mut generator = Generator::new(run.seed);
    let keys: Vec<Key> = (0..FINDS)
        .map(|_| spread_key(wanted(generator.number())))
        .collect();
    measure(|| {
        let mut sum = 0;
        for key in &keys {
            if let Some(entry) = table.find(key) {
                sum = mixed(sum, row_number(key, entry));
            }
        }
        sum
    })
}

/// A sum that goes on over these rows.
fn sum_of<'a, V: Payload + 'a>(
    sum: u64,
    rows: impl Iterator<Item = (&'a Key, &'a Option<V>)>,
) -> u64 {
    rows.fold(sum, |sum, (key, entry)| {
        mixed(sum, row_number(key, entry.as_ref()))
    })
}

/// What was measured, with every row of the table in its checksum.
fn with_rows<V: Payload>(measured: Measured, table: &Table<V>) -> Measured {
    Measured {
        checksum: mixed(measured.checksum, checksum(table)),
        ..measured
    }
}

/// A sum over every row, in order.
fn checksum<V: Payload>(table: &Table<V>) -> u64 {
    sum_of(0, table.keys.iter().zip(&table.entries))
}

fn row_number<V: Payload>(key: &Key, entry: Option<&V>) -> u64 {
    key_number(key).wrapping_add(entry.map_or(1, |value| value.number()))
}
