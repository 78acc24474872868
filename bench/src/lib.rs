//! The ledger written by hand in plain Rust, and its workloads.
//!
//! `bench/run ledger` times them beside those over the forest. `cargo test` shows that the ledger answers as the proved
//! one does: it prints what the repository's worked scripts print, and gives every result where the proved ledger gave it.
//! `cargo test --release -- --include-ignored` also builds the proved program and compares both on random scripts.

pub mod batches;
pub mod events;
pub mod ingest;
pub mod keys;
pub mod ledger;
pub mod pending;
pub mod queries;
pub mod script;
pub mod sharing;

use std::time::Instant;

/// How often a workload does what it does, and the seed of its keys.
#[derive(Clone, Copy)]
pub struct Run {
    pub count: u64,
    pub seed: u64,
}

/// What a workload gave, and how long it took.
#[derive(Default)]
pub struct Measured {
    pub checksum: u64,
    pub nanoseconds: u128,
    /// How long that round or batch took that took longest, or all of it, where there are none.
    pub worst: u128,
    /// Beside readers, from the clients' start to their end, for how long they held the lock at most, and how many queries were made.
    pub wall: u128,
    pub held: u128,
    pub queries: u64,
}

/// Times the work, which gives a checksum.
pub fn measure(work: impl FnOnce() -> u64) -> Measured {
    let start = Instant::now();
    let checksum = work();
    let nanoseconds = start.elapsed().as_nanos();
    Measured {
        checksum,
        nanoseconds,
        worst: nanoseconds,
        ..Measured::default()
    }
}
