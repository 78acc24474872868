//! What the layout of tables allows by itself: answers over rows that lie together, and over the same rows in sixteen tables,
//! each with its keys apart from its entries, as sealed tables have them.
//!
//! `layout WORKLOAD LAYOUT COUNT SEED` prints a checksum, and nanoseconds. A layout is `together`, `tables`, or `fetched`,
//! which is `tables` where the processor is told of all lines of an answer before the first is read. In each of them it is known
//! beforehand where an answer's rows lie: nothing is searched, merged or checked. So a query over tables can be expected to take
//! at least as long as `tables`, however it is written.

use plain::keys::{Generator, Key};
use plain::ledger::{AccountBalance, Transfer};
use plain::measure;
use std::env;
use std::ops::Range;
use std::process::ExitCode;

const TABLES: usize = 16;
/// How many accounts have histories, how many rows an answer has at most, and how many answers there are.
const ACCOUNTS: u64 = 5_000;
const LIMIT: usize = 200;
const HISTORIES: u64 = 10_000;
/// How many values there are of the field that leads, how many of the one that is tested, and how many answers.
const VALUES: u64 = 1_000;
const LEDGERS: u64 = 4;
const FOUND: u64 = 1_000;

/// The four balances of an account.
type Sums = [u128; 4];

/// The keys of a table, which rise.
fn keys_of(rows: &[(u64, u64)]) -> Vec<Key> {
    let keys = rows.iter().map(|(value, timestamp)| Key {
        value: u128::from(*value),
        timestamp: *timestamp,
    });
    let mut keys: Vec<Key> = keys.collect();
    keys.sort();
    keys
}

/// Where the keys of each value lie in each of these tables.
fn places(tables: &[Vec<Key>], values: u64) -> Vec<Vec<Range<usize>>> {
    let below =
        |keys: &Vec<Key>, value: u64| keys.partition_point(|key| key.value < u128::from(value));
    let of_value = |value| {
        tables
            .iter()
            .map(move |keys| below(keys, value)..below(keys, value + 1))
    };
    (0..values).map(|value| of_value(value).collect()).collect()
}

/// The value and the timestamp of each row, by rising timestamp.
fn rows(count: u64, values: u64, seed: u64) -> Vec<(u64, u64)> {
    let mut numbers = Generator::new(seed);
    (1..=count)
        .map(|timestamp| (numbers.number() % values, timestamp))
        .collect()
}

/// Tells the processor that all of this will be read.
fn fetch<T>(rows: &[T]) {
    #[cfg(target_arch = "x86_64")]
    for line in (0..std::mem::size_of_val(rows)).step_by(64) {
        // A prefetch reads nothing that a program could tell.
        unsafe {
            use std::arch::x86_64::{_mm_prefetch, _MM_HINT_T0};
            _mm_prefetch::<_MM_HINT_T0>(rows.as_ptr().cast::<i8>().add(line));
        }
    }
}

fn balance(timestamp: u64, sums: &Sums) -> AccountBalance {
    let [debits_pending, debits_posted, credits_pending, credits_posted] = *sums;
    AccountBalance {
        debits_pending,
        debits_posted,
        credits_pending,
        credits_posted,
        timestamp,
        reserved: [0; 56],
    }
}

/// The first balances of any account.
fn balances(layout: &str, count: u64, seed: u64) -> (u64, u128) {
    let rows = rows(count, ACCOUNTS, seed);
    let mut histories: Vec<Vec<(u64, Sums)>> = vec![Vec::new(); ACCOUNTS as usize];
    for (account, timestamp) in &rows {
        histories[*account as usize].push((*timestamp, [u128::from(*timestamp); 4]));
    }
    let keys: Vec<Vec<Key>> = rows
        .chunks(rows.len().div_ceil(TABLES))
        .map(keys_of)
        .collect();
    let sums = |key: &Key| Some([u128::from(key.timestamp); 4]);
    let entries = keys.iter().map(|keys| keys.iter().map(sums).collect());
    let entries: Vec<Vec<Option<Sums>>> = entries.collect();
    let places = places(&keys, ACCOUNTS);
    let mut numbers = Generator::new(seed + 1);
    timed(HISTORIES, |_| {
        let account = (numbers.number() % ACCOUNTS) as usize;
        let mut found = Vec::with_capacity(LIMIT);
        if layout == "together" {
            let history = histories[account].iter().take(LIMIT);
            found.extend(history.map(|(timestamp, sums)| balance(*timestamp, sums)));
        } else {
            let own = || places[account].iter().cloned().enumerate();
            if layout == "fetched" {
                for (table, own) in own() {
                    fetch(&keys[table][own.clone()]);
                    fetch(&entries[table][own]);
                }
            }
            for (table, own) in own() {
                for (key, entry) in keys[table][own.clone()].iter().zip(&entries[table][own]) {
                    if found.len() == LIMIT {
                        break;
                    }
                    if let Some(sums) = entry {
                        found.push(balance(key.timestamp, sums));
                    }
                }
            }
        }
        found.iter().map(|row: &AccountBalance| row.timestamp).sum()
    })
}

/// The transfers with a value in a ledger.
fn found(layout: &str, count: u64, seed: u64) -> (u64, u128) {
    let rows = rows(count, VALUES, seed);
    let records: Vec<Transfer> = rows
        .iter()
        .map(|(value, timestamp)| Transfer {
            user_data_64: *value,
            ledger: 1 + (timestamp.wrapping_mul(0x9E37_79B9) >> 16 & (LEDGERS - 1)) as u32,
            timestamp: *timestamp,
            ..Transfer::default()
        })
        .collect();
    let mut lists: Vec<Vec<u64>> = vec![Vec::new(); VALUES as usize];
    for (value, timestamp) in &rows {
        lists[*value as usize].push(*timestamp);
    }
    let part = rows.len().div_ceil(TABLES);
    let keys: Vec<Vec<Key>> = rows.chunks(part).map(keys_of).collect();
    let places = places(&keys, VALUES);
    let objects: Vec<Vec<Option<Transfer>>> = records
        .chunks(part)
        .map(|records| records.iter().copied().map(Some).collect())
        .collect();
    let mut numbers = Generator::new(seed + 1);
    timed(FOUND, |answer| {
        let value = (numbers.number() % VALUES) as usize;
        let ledger = 1 + (answer % LEDGERS) as u32;
        let mut found: Vec<Transfer> = Vec::with_capacity(lists[value].len());
        if layout == "together" {
            let listed = lists[value]
                .iter()
                .map(|timestamp| &records[*timestamp as usize - 1]);
            found.extend(listed.filter(|transfer| transfer.ledger == ledger));
        } else {
            for (table, own) in places[value].iter().cloned().enumerate() {
                let own = &keys[table][own];
                if layout == "fetched" {
                    fetch(own);
                }
                for key in own {
                    let place = key.timestamp as usize - 1 - table * part;
                    if let Some(transfer) = &objects[table][place] {
                        if transfer.ledger == ledger {
                            found.push(*transfer);
                        }
                    }
                }
            }
        }
        found.iter().map(|row| row.timestamp).sum()
    })
}

/// Times so many answers, each of which gives a checksum.
fn timed(answers: u64, mut answer: impl FnMut(u64) -> u64) -> (u64, u128) {
    let measured =
        measure(|| (0..answers).fold(0, |sum: u64, number| sum.wrapping_add(answer(number))));
    (measured.checksum, measured.nanoseconds)
}

fn main() -> ExitCode {
    let words: Vec<String> = env::args().skip(1).collect();
    let words: Vec<&str> = words.iter().map(String::as_str).collect();
    let [name, layout @ ("together" | "tables" | "fetched"), count, seed] = words[..] else {
        eprintln!("usage: layout WORKLOAD together|tables|fetched COUNT SEED");
        return ExitCode::FAILURE;
    };
    let workload = match name {
        "balances_200" => balances,
        "user_data_64_with_ledger" => found,
        _ => {
            eprintln!("workloads: balances_200 user_data_64_with_ledger");
            return ExitCode::FAILURE;
        }
    };
    let (Ok(count), Ok(seed)) = (count.parse(), seed.parse()) else {
        eprintln!("layout: COUNT and SEED are numbers");
        return ExitCode::FAILURE;
    };
    let (checksum, nanoseconds) = workload(layout, count, seed);
    println!("{checksum} {nanoseconds}");
    ExitCode::SUCCESS
}
