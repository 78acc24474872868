//! Workloads over the standard library's ordered map.

use crate::keys::{key_number, mixed, rising_key, Generator, Key, Payload};
use crate::{measure, Measured, Run};
use std::collections::BTreeMap;

const ROUND: u64 = 8190;
const SEEKS: u64 = 10000;
const STEPS: usize = 100;

pub fn insert_rising<V: Payload>(run: Run) -> Measured {
    let mut map = BTreeMap::new();
    let measured = measure(|| {
        for place in 0..run.count {
            map.insert(rising_key(place), V::of(place));
        }
        0
    });
    with_rows(measured, &map)
}

pub fn insert_random<V: Payload>(run: Run) -> Measured {
    let keys = random_keys(run);
    let mut map = BTreeMap::new();
    let measured = measure(|| {
        for key in &keys {
            map.insert(*key, V::of(key.timestamp));
        }
        0
    });
    with_rows(measured, &map)
}

pub fn rounds<V: Payload>(run: Run) -> Measured {
    let keys = random_keys(Run {
        count: run.count * ROUND,
        ..run
    });
    let mut map = BTreeMap::new();
    measure(|| {
        let mut sum = 0;
        for round in keys.chunks(ROUND as usize) {
            for key in round {
                map.insert(*key, V::of(key.timestamp));
            }
            sum = mixed(sum, map.len() as u64);
            map.clear();
        }
        sum
    })
}

pub fn get_hit<V: Payload>(run: Run) -> Measured {
    let keys = random_keys(run);
    get_all(&map_of::<V>(&keys), &keys)
}

pub fn get_miss<V: Payload>(run: Run) -> Measured {
    let keys = random_keys(run);
    let missing = random_keys(Run {
        seed: run.seed.wrapping_add(1),
        ..run
    });
    get_all(&map_of::<V>(&keys), &missing)
}

pub fn walk<V: Payload>(run: Run) -> Measured {
    let map = map_of::<V>(&random_keys(run));
    measure(|| checksum(&map))
}

pub fn seek_up<V: Payload>(run: Run) -> Measured {
    let map = map_of::<V>(&random_keys(run));
    let mut generator = Generator::new(run.seed.wrapping_add(1));
    measure(|| {
        let mut sum = 0;
        for _ in 0..SEEKS {
            for (key, value) in map.range(generator.key()..).take(STEPS) {
                sum = mixed(sum, key_number(key).wrapping_add(value.number()));
            }
        }
        sum
    })
}

pub fn seek_down<V: Payload>(run: Run) -> Measured {
    let map = map_of::<V>(&random_keys(run));
    let mut generator = Generator::new(run.seed.wrapping_add(1));
    measure(|| {
        let mut sum = 0;
        for _ in 0..SEEKS {
            for (key, value) in map.range(..=generator.key()).rev().take(STEPS) {
                sum = mixed(sum, key_number(key).wrapping_add(value.number()));
            }
        }
        sum
    })
}

pub fn remove<V: Payload>(run: Run) -> Measured {
    let keys = random_keys(run);
    let mut map = map_of::<V>(&keys);
    let measured = measure(|| {
        let mut sum = 0;
        for key in &keys[..keys.len() / 2] {
            if let Some(value) = map.remove(key) {
                sum = mixed(sum, value.number());
            }
        }
        sum
    });
    with_rows(measured, &map)
}

fn random_keys(run: Run) -> Vec<Key> {
    let mut generator = Generator::new(run.seed);
    (0..run.count).map(|_| generator.key()).collect()
}

fn map_of<V: Payload>(keys: &[Key]) -> BTreeMap<Key, V> {
    let mut map = BTreeMap::new();
    for key in keys {
        map.insert(*key, V::of(key.timestamp));
    }
    map
}

fn get_all<V: Payload>(map: &BTreeMap<Key, V>, keys: &[Key]) -> Measured {
    measure(|| {
        let mut sum = 0;
        for key in keys {
            if let Some(value) = map.get(key) {
                sum = mixed(sum, key_number(key).wrapping_add(value.number()));
            }
        }
        sum
    })
}

/// What was measured, with every row of the map in its checksum.
fn with_rows<V: Payload>(measured: Measured, map: &BTreeMap<Key, V>) -> Measured {
    Measured {
        checksum: mixed(measured.checksum, checksum(map)),
        ..measured
    }
}

fn checksum<V: Payload>(map: &BTreeMap<Key, V>) -> u64 {
    let mut sum = 0;
    for (key, value) in map {
        sum = mixed(sum, key_number(key).wrapping_add(value.number()));
    }
    sum
}
