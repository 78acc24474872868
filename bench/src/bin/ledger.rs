//! The workloads of `tf_ledger_bench` over the ledger that is written by hand in plain Rust, by the same words:
//! `ledger WORKLOAD COUNT SEED` prints the checksum, and nanoseconds: in all, and of the batch that took longest; beside
//! readers also from the clients' start to their end, and for which they held the lock at most, and how many queries were made.
//! Without arguments the program lists its workloads.
//!
//! There are 10,000 accounts, and COUNT transfers between them, which have all searched fields. Batches have 8,190
//! events where nothing else is said. What makes the events isn't timed. Nothing is published here, so that
//! `ingest_small` stands for both of the workloads with small batches.

use plain::events::Ids;
use plain::queries::Order;
use plain::{ingest, pending, queries, sharing, Measured, Run};
use std::env;
use std::process::ExitCode;

type Workload = fn(Run) -> Measured;

const WORKLOADS: [(&str, Workload); 23] = [
    ("ingest_rising", |run| ingest::ingest(run, Ids::Rising)),
    ("ingest_random", |run| ingest::ingest(run, Ids::Random)),
    ("ingest_small", ingest::ingest_small),
    ("ingest_chains", ingest::ingest_chains),
    ("pending_store", pending::store),
    ("pending_post", pending::post),
    ("pending_void", pending::void),
    ("pending_expire", pending::expire),
    ("query_account_10", |run| {
        queries::account_first(run, queries::SHORT)
    }),
    ("query_account_200_back", |run| {
        queries::account_last(run, queries::LONG)
    }),
    ("query_code_in_time", queries::code_in_time),
    (
        "query_user_data_64_with_ledger",
        queries::user_data_64_with_ledger,
    ),
    ("query_ledger_with_code", queries::ledger_with_code),
    ("query_balances_200", |run| {
        queries::balances(run, queries::LONG)
    }),
    ("query_all", queries::all),
    ("look_up_rising", |run| {
        queries::look_up(run, Ids::Rising, Order::OfIds)
    }),
    ("look_up_random", |run| {
        queries::look_up(run, Ids::Random, Order::OfIds)
    }),
    ("look_up_strewn", |run| {
        queries::look_up(run, Ids::Random, Order::AsStored)
    }),
    ("shared_0", |run| sharing::share(run, 1, 0)),
    ("shared_1", |run| sharing::share(run, 1, 1)),
    ("shared_3", |run| sharing::share(run, 1, 3)),
    ("shared_16", |run| sharing::share(run, 1, 16)),
    ("clients_4", |run| sharing::share(run, 4, 3)),
];

/// Runs one workload.
fn measured(name: &str, count: &str, seed: &str) -> Option<Measured> {
    let (_, workload) = WORKLOADS.iter().find(|workload| workload.0 == name)?;
    Some(workload(Run {
        count: count.parse().ok()?,
        seed: seed.parse().ok()?,
    }))
}

fn main() -> ExitCode {
    let words: Vec<String> = env::args().skip(1).collect();
    if words.is_empty() {
        for (name, _) in WORKLOADS {
            println!("{name}");
        }
        return ExitCode::SUCCESS;
    }
    let done = match words.as_slice() {
        [name, count, seed] => measured(name, count, seed),
        _ => None,
    };
    match done {
        Some(measured) => {
            let Measured {
                checksum,
                nanoseconds,
                worst,
                wall,
                held,
                queries,
            } = measured;
            println!("{checksum} {nanoseconds} {worst} {wall} {held} {queries}");
            ExitCode::SUCCESS
        }
        None => {
            eprintln!("usage: ledger WORKLOAD COUNT SEED");
            ExitCode::FAILURE
        }
    }
}
