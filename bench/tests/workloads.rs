//! The workloads do what they say.

use plain::batches::{batch_lengths, Batches};
use plain::events::{account_id, Ids, Transfers, ACCOUNTS, WITH_HISTORY};
use plain::ledger::{Account, QueryFilter, BATCH_MAX};
use plain::queries::Order;
use plain::{ingest, pending, queries, script, sharing, Measured, Run};

const RUN: Run = Run {
    count: 5_000,
    seed: 7,
};

const NONE: Run = Run { count: 0, seed: 7 };

fn assert_same(one: Measured, other: Measured) {
    assert_eq!(one.checksum, other.checksum);
}

#[test]
fn all_transfers_are_stored_and_history_is_kept() {
    let mut transfers = Transfers::new(7, Ids::Random);
    let ledger = Batches::ingested(&mut transfers, RUN);
    let mut again = Transfers::new(7, Ids::Random);
    let ids: Vec<u128> = again.batch(RUN.count).iter().map(|row| row.id).collect();
    let stored = ledger.lookup_transfers(&ids).expect("a small look-up");
    assert_eq!(stored.len() as u64, RUN.count);
    let ids: Vec<u128> = (0..BATCH_MAX as u64).map(account_id).collect();
    let accounts = ledger.lookup_accounts(&ids).expect("a look-up");
    let with_history = accounts.iter().filter(|row| row.has(Account::HISTORY));
    assert_eq!(with_history.count() as u64, WITH_HISTORY);
    let filter = QueryFilter {
        limit: u32::MAX,
        ..QueryFilter::default()
    };
    assert_eq!(ledger.query_transfers(&filter), stored);
    assert_eq!(ledger.clock(), ACCOUNTS + RUN.count);
}

#[test]
fn batches_of_any_size_store_the_same() {
    assert_same(ingest::ingest(RUN, Ids::Rising), ingest::ingest_small(RUN));
    let lengths: Vec<u64> = batch_lengths(25, 10).collect();
    assert_eq!(lengths, [10, 10, 5]);
}

#[test]
fn a_post_of_all_pending_transfers_is_an_ingest() {
    assert_same(pending::post(RUN), ingest::ingest(RUN, Ids::Rising));
}

#[test]
fn voids_and_expiries_leave_nothing() {
    let empty = ingest::ingest(NONE, Ids::Rising).checksum;
    assert_eq!(pending::void(RUN).checksum, empty);
    assert_eq!(pending::expire(RUN).checksum, empty);
    assert_ne!(pending::store(RUN).checksum, empty);
}

#[test]
fn a_tenth_of_the_chains_fails() {
    let mut transfers = Transfers::new(7, Ids::Rising);
    let mut ledger = Batches::over_accounts().ledger;
    let chains = 2_000;
    let mut failed = 0;
    for _ in 0..chains {
        let chain = ingest::chain(&mut transfers);
        let failures = ledger.create_transfers(&chain, 0).expect("a small batch");
        assert!(failures.is_empty() || failures.len() == chain.len());
        failed += failures.len() / chain.len();
    }
    assert!((chains / 20..chains / 5).contains(&failed));
}

#[test]
fn queries_find_rows() {
    let queries = [
        queries::account_first(RUN, 10),
        queries::account_last(RUN, 200),
        queries::balances(RUN, 200),
        queries::code_in_time(RUN),
        queries::user_data_64_with_ledger(RUN),
        queries::ledger_with_code(RUN),
        queries::all(RUN),
        queries::look_up(RUN, Ids::Rising, Order::OfIds),
        queries::look_up(RUN, Ids::Random, Order::OfIds),
        queries::look_up(RUN, Ids::Random, Order::AsStored),
    ];
    assert!(queries.iter().all(|measured| measured.checksum != 0));
}

#[test]
fn what_is_stored_beside_readers_is_an_ingest() {
    assert_same(sharing::share(RUN, 1, 0), ingest::ingest(RUN, Ids::Rising));
    let shared = sharing::share(RUN, 1, 2);
    assert_same(sharing::share(RUN, 1, 2), shared);
}

#[test]
fn what_clients_store_together_is_the_same_each_time() {
    let shared = sharing::share(RUN, 4, 0);
    assert_same(sharing::share(RUN, 4, 3), shared);
}

#[test]
fn a_script_asks_for_rows_after_each_batch() {
    let answer = script::answer(&script::text(RUN));
    assert!(answer.contains(&format!("clock {}\n", ACCOUNTS + RUN.count)));
    assert_eq!(answer.matches("\nrows ").count(), 100);
    assert!(answer.matches("transfer id=").count() > 50);
}
