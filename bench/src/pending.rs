//! Workloads over pending transfers.

use crate::batches::{batch_lengths, Batches};
use crate::events::{Ids, Transfers};
use crate::ledger::{Transfer, AMOUNT_MAX, BATCH_MAX};
use crate::{Measured, Run};

/// The greatest timeout, in seconds.
const TIMEOUT: u64 = 60;

const NANOSECONDS: u64 = 1_000_000_000;

/// Stores pending transfers, each with a timeout.
pub fn store(run: Run) -> Measured {
    with_pending(run).measured()
}

/// Posts pending transfers whole, in the order in which they were stored.
pub fn post(run: Run) -> Measured {
    settled(run, Transfer::POST_PENDING_TRANSFER, AMOUNT_MAX)
}

/// Voids pending transfers in that order.
pub fn void(run: Run) -> Measured {
    settled(run, Transfer::VOID_PENDING_TRANSFER, 0)
}

/// Lets pending transfers expire.
pub fn expire(run: Run) -> Measured {
    let mut batches = with_pending(run);
    batches.restart();
    let now = batches.ledger.clock() + (TIMEOUT + 1) * NANOSECONDS;
    while batches.pulse(now) > 0 {}
    batches.measured()
}

/// A ledger with as many pending transfers as the run says, whose ids are 1 and up.
fn with_pending(run: Run) -> Batches {
    let mut transfers = Transfers::new(run.seed, Ids::Rising);
    let mut batches = Batches::over_accounts();
    for len in batch_lengths(run.count, BATCH_MAX as u64) {
        let mut events = transfers.batch(len);
        for event in &mut events {
            event.flags = Transfer::PENDING;
            event.timeout = 1 + transfers.below(TIMEOUT) as u32;
        }
        batches.run(&events);
    }
    batches
}

/// Ends each pending transfer by a post or void with this flag and amount.
fn settled(run: Run, flags: u16, amount: u128) -> Measured {
    let mut batches = with_pending(run);
    batches.restart();
    let mut pending_id = 0;
    for len in batch_lengths(run.count, BATCH_MAX as u64) {
        let ids = pending_id + 1..=pending_id + u128::from(len);
        pending_id += u128::from(len);
        let events = ids.map(|pending_id| Transfer {
            id: u128::from(run.count) + pending_id,
            pending_id,
            amount,
            flags,
            ..Transfer::default()
        });
        let events: Vec<Transfer> = events.collect();
        batches.run(&events);
    }
    batches.measured()
}
