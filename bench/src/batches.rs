//! Batches that are run one after another, and timed without what makes them.

use crate::events::{account_id, accounts, Transfers, ACCOUNTS};
use crate::keys::mixed;
use crate::ledger::{Ledger, Transfer, BATCH_MAX};
use crate::{measure, Measured, Run};

/// A ledger, and how long its batches took.
pub struct Batches {
    pub ledger: Ledger,
    failures: u64,
    nanoseconds: u128,
    worst: u128,
}

impl Batches {
    /// A ledger with all accounts.
    pub fn over_accounts() -> Self {
        let mut ledger = Ledger::default();
        for events in accounts().chunks(BATCH_MAX) {
            let reply = ledger.create_accounts(events, 0);
            assert_eq!(reply, Ok(Vec::new()), "all accounts are stored");
        }
        Batches {
            ledger,
            failures: 0,
            nanoseconds: 0,
            worst: 0,
        }
    }

    /// A ledger with all accounts and as many transfers as the run says.
    pub fn ingested(transfers: &mut Transfers, run: Run) -> Ledger {
        let mut batches = Batches::over_accounts();
        batches.run_all(transfers, run);
        batches.ledger
    }

    /// Runs as many transfers as the run says, in the largest batches.
    pub fn run_all(&mut self, transfers: &mut Transfers, run: Run) {
        for len in batch_lengths(run.count, BATCH_MAX as u64) {
            self.run(&transfers.batch(len));
        }
    }

    /// Runs a batch.
    pub fn run(&mut self, events: &[Transfer]) {
        let mut failures = 0;
        let ledger = &mut self.ledger;
        let measured = measure(|| {
            let reply = ledger.create_transfers(events, 0);
            failures = reply.expect("the batch isn't refused").len() as u64;
            0
        });
        self.failures += failures;
        self.add(measured.nanoseconds);
    }

    /// Runs the largest pulse. The answer is how many transfers expired.
    pub fn pulse(&mut self, now: u64) -> u32 {
        let mut count = 0;
        let ledger = &mut self.ledger;
        let measured = measure(|| {
            let reply = ledger.pulse(now, BATCH_MAX as u32);
            count = reply.expect("the pulse isn't refused");
            0
        });
        self.add(measured.nanoseconds);
        count
    }

    fn add(&mut self, nanoseconds: u128) {
        self.nanoseconds += nanoseconds;
        self.worst = self.worst.max(nanoseconds);
    }

    /// Forgets how long the batches took so far.
    pub fn restart(&mut self) {
        self.nanoseconds = 0;
        self.worst = 0;
    }

    /// A sum of what failed and of all accounts, and how long the batches took.
    pub fn measured(self) -> Measured {
        Measured {
            checksum: accounts_sum(&self.ledger, self.failures),
            nanoseconds: self.nanoseconds,
            worst: self.worst,
            ..Measured::default()
        }
    }
}

/// A sum of a number and the balances of all accounts.
pub fn accounts_sum(ledger: &Ledger, number: u64) -> u64 {
    let ids: Vec<u128> = (0..ACCOUNTS).map(account_id).collect();
    let lookups = ids.chunks(BATCH_MAX);
    let accounts = lookups.flat_map(|ids| {
        let accounts = ledger.lookup_accounts(ids);
        accounts.expect("the look-up isn't refused")
    });
    accounts.fold(number, |sum, account| {
        let sum = mixed(sum, account.debits_pending as u64);
        let sum = mixed(sum, account.debits_posted as u64);
        let sum = mixed(sum, account.credits_pending as u64);
        mixed(sum, account.credits_posted as u64)
    })
}

/// The lengths of the batches of so many events, all but the last of which have the greatest length.
pub fn batch_lengths(count: u64, greatest: u64) -> impl Iterator<Item = u64> {
    let starts = (0..count).step_by(greatest as usize);
    starts.map(move |start| greatest.min(count - start))
}
