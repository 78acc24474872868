//! Workloads that store transfers.

use crate::batches::{batch_lengths, Batches};
use crate::events::{account_id, Ids, Transfers, ACCOUNTS};
use crate::ledger::{Transfer, BATCH_MAX};
use crate::{Measured, Run};

/// How many transfers a small batch has.
const SMALL: u64 = 10;

/// How many transfers a chain has, and of how many chains one fails.
const CHAIN: u64 = 4;
const CHAINS: u64 = 10;

/// Batches of the greatest length.
pub fn ingest(run: Run, ids: Ids) -> Measured {
    let mut batches = Batches::over_accounts();
    batches.run_all(&mut Transfers::new(run.seed, ids), run);
    batches.measured()
}

/// Small batches.
pub fn ingest_small(run: Run) -> Measured {
    let mut transfers = Transfers::new(run.seed, Ids::Rising);
    let mut batches = Batches::over_accounts();
    for len in batch_lengths(run.count, SMALL) {
        batches.run(&transfers.batch(len));
    }
    batches.measured()
}

/// Chains in batches of the greatest length. A tenth of the chains fails.
pub fn ingest_chains(run: Run) -> Measured {
    let mut transfers = Transfers::new(run.seed, Ids::Rising);
    let mut batches = Batches::over_accounts();
    for chains in batch_lengths(run.count / CHAIN, BATCH_MAX as u64 / CHAIN) {
        let events: Vec<Transfer> = (0..chains).flat_map(|_| chain(&mut transfers)).collect();
        batches.run(&events);
    }
    batches.measured()
}

/// A chain, which fails now and then by an account that isn't stored.
pub fn chain(transfers: &mut Transfers) -> Vec<Transfer> {
    let mut chain = transfers.batch(CHAIN);
    let (last, linked) = chain.split_last_mut().expect("a chain has an event");
    for event in linked {
        event.flags = Transfer::LINKED;
    }
    last.flags = 0;
    if transfers.below(CHAINS) == 0 {
        let place = transfers.below(CHAIN) as usize;
        chain[place].credit_account_id = account_id(ACCOUNTS);
    }
    chain
}
