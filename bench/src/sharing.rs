//! A ledger under a lock, which some threads write and others read at the same time.

use crate::batches::{accounts_sum, batch_lengths};
use crate::events::{accounts, Ids, Transfers, ACCOUNTS};
use crate::keys::{mixed, Generator};
use crate::ledger::{Ledger, BATCH_MAX};
use crate::queries::{of_account, timestamps, BOTH, SHORT};
use crate::{Measured, Run};
use std::sync::atomic::{AtomicBool, Ordering};
use std::sync::Mutex;
use std::thread;
use std::time::Instant;

/// How often each reader asks at the end, once the clients are done.
const LAST: u64 = 1_000;

/// So many clients store transfers in batches of the greatest length, while so many readers ask for transfers of accounts.
pub fn share(run: Run, clients: u64, readers: u64) -> Measured {
    let mut ledger = Ledger::default();
    for events in accounts().chunks(BATCH_MAX) {
        let reply = ledger.create_accounts(events, 0);
        assert_eq!(reply, Ok(Vec::new()), "all accounts are stored");
    }
    let locked = Mutex::new(ledger);
    let mut measured = at_once(&locked, run, clients, readers);
    let ledger = locked.lock().expect("no thread panics");
    measured.checksum = accounts_sum(&ledger, measured.checksum);
    drop(ledger);
    // with several clients the transfers have another order in each run
    if clients == 1 {
        for _ in 0..readers {
            measured.checksum = mixed(measured.checksum, last(&locked, run.seed));
        }
    }
    measured
}

/// Stores and asks until all is stored. In the checksum's place is how many transfers failed.
fn at_once(locked: &Mutex<Ledger>, run: Run, clients: u64, readers: u64) -> Measured {
    let done = AtomicBool::new(false);
    let is_done = &done;
    let count = run.count / clients;
    thread::scope(|scope| {
        let seeds = (0..readers).map(|place| mixed(run.seed, place));
        let readers: Vec<_> = seeds
            .map(|seed| scope.spawn(move || ask_on(locked, seed, is_done)))
            .collect();
        let clients: Vec<_> = (0..clients)
            .map(|place| {
                let seed = run.seed + place;
                let transfers = Transfers::after(seed, Ids::Rising, place * count);
                scope.spawn(move || write(locked, transfers, count))
            })
            .collect();
        let wrote = clients.into_iter().map(|client| client.join());
        let wrote = wrote.map(|measured| measured.expect("a client ends"));
        let mut measured = wrote.reduce(slowest).expect("there is a client");
        done.store(true, Ordering::SeqCst);
        let asked = readers.into_iter().map(|reader| reader.join());
        measured.queries = asked.map(|queries| queries.expect("a reader ends")).sum();
        measured
    })
}

/// The times of the slower of two clients, and how many transfers of both failed.
fn slowest(one: Measured, other: Measured) -> Measured {
    Measured {
        checksum: one.checksum + other.checksum,
        nanoseconds: one.nanoseconds.max(other.nanoseconds),
        worst: one.worst.max(other.worst),
        wall: one.wall.max(other.wall),
        held: one.held.max(other.held),
        queries: 0,
    }
}

/// Stores so many transfers. In the checksum's place is how many failed.
fn write(locked: &Mutex<Ledger>, mut transfers: Transfers, count: u64) -> Measured {
    let mut measured = Measured::default();
    let began = Instant::now();
    for len in batch_lengths(count, BATCH_MAX as u64) {
        let events = transfers.batch(len);
        let start = Instant::now();
        let mut ledger = locked.lock().expect("no thread panics");
        let entered = Instant::now();
        let reply = ledger.create_transfers(&events, 0);
        drop(ledger);
        let (whole, held) = (start.elapsed().as_nanos(), entered.elapsed().as_nanos());
        measured.checksum += reply.expect("the batch isn't refused").len() as u64;
        measured.nanoseconds += whole;
        measured.worst = measured.worst.max(whole);
        measured.held = measured.held.max(held);
    }
    measured.wall = began.elapsed().as_nanos();
    measured
}

/// Asks for the first transfers of one account after another until the clients are done. Tells how often.
fn ask_on(locked: &Mutex<Ledger>, seed: u64, done: &AtomicBool) -> u64 {
    let mut numbers = Generator::new(seed);
    let mut queries = 0;
    while !done.load(Ordering::SeqCst) {
        ask(locked, &mut numbers);
        queries += 1;
    }
    queries
}

/// A sum of what is answered to the last queries, which are the same whatever was asked before.
fn last(locked: &Mutex<Ledger>, seed: u64) -> u64 {
    let mut numbers = Generator::new(seed);
    (0..LAST).fold(0, |sum, _| mixed(sum, ask(locked, &mut numbers)))
}

/// A sum of the first ten transfers of an account.
fn ask(locked: &Mutex<Ledger>, numbers: &mut Generator) -> u64 {
    let filter = of_account(numbers, ACCOUNTS, SHORT, BOTH);
    let ledger = locked.lock().expect("no thread panics");
    let found = ledger.account_transfers(&filter);
    drop(ledger);
    timestamps(&found)
}
