//! Batches: chains of events, each stored as a whole or not at all.

use super::limits::{BATCH_MAX, TIMESTAMP_MAX};
use super::outcome::Outcome;
use super::records::{Account, Transfer};
use super::reply::{Failure, Refusal};
use super::verdict::{judge_account, judge_transfer};
use super::Ledger;

/// What accounts and transfers have in common as events.
trait Event {
    /// Whether it stands or falls with the next event.
    fn is_linked(&self) -> bool;

    /// Stores the event at a timestamp, or says why not.
    fn store(&self, ledger: &mut Ledger, timestamp: u64) -> Result<(), Outcome>;

    /// How many records of its kind are stored.
    fn stored(ledger: &Ledger) -> usize;

    /// Takes the last record of its kind back.
    fn take_back(ledger: &mut Ledger);

    /// Notes what a failure of its own leaves.
    fn note_failure(&self, ledger: &mut Ledger, outcome: Outcome);

    /// Lists the records of its kind that were stored.
    fn list(ledger: &mut Ledger);
}

impl Event for Account {
    fn is_linked(&self) -> bool {
        self.has(Account::LINKED)
    }

    fn store(&self, ledger: &mut Ledger, timestamp: u64) -> Result<(), Outcome> {
        let account = judge_account(ledger, timestamp, self)?;
        ledger.accounts.records.push(account);
        Ok(())
    }

    fn stored(ledger: &Ledger) -> usize {
        ledger.accounts.records.len()
    }

    fn take_back(ledger: &mut Ledger) {
        ledger.accounts.records.pop();
    }

    fn note_failure(&self, _ledger: &mut Ledger, _outcome: Outcome) {}

    fn list(ledger: &mut Ledger) {
        ledger.accounts.update();
    }
}

impl Event for Transfer {
    fn is_linked(&self) -> bool {
        self.has(Transfer::LINKED)
    }

    fn store(&self, ledger: &mut Ledger, timestamp: u64) -> Result<(), Outcome> {
        let accepted = judge_transfer(ledger, timestamp, self)?;
        ledger.add_transfer(accepted);
        Ok(())
    }

    fn stored(ledger: &Ledger) -> usize {
        ledger.transfers.records.len()
    }

    fn take_back(ledger: &mut Ledger) {
        ledger.take_back_transfer();
    }

    fn note_failure(&self, ledger: &mut Ledger, outcome: Outcome) {
        if outcome.may_pass() {
            ledger.transfers.fail(self.id);
        }
    }

    fn list(ledger: &mut Ledger) {
        ledger.list_transfers();
    }
}

impl Ledger {
    /// Stores accounts, and answers which events weren't stored. Event i is judged at the later of the clock and `now`,
    /// plus i + 1, and the clock moves on by the number of events. Times are nanoseconds.
    pub fn create_accounts(
        &mut self,
        events: &[Account],
        now: u64,
    ) -> Result<Vec<Failure>, Refusal> {
        self.run_batch(events, now)
    }

    /// Stores transfers, as [`Ledger::create_accounts`] stores accounts. The id of a transfer that fails by itself for
    /// a reason that may pass stays failed.
    pub fn create_transfers(
        &mut self,
        events: &[Transfer],
        now: u64,
    ) -> Result<Vec<Failure>, Refusal> {
        self.run_batch(events, now)
    }

    fn run_batch<E: Event>(&mut self, events: &[E], now: u64) -> Result<Vec<Failure>, Refusal> {
        if events.len() > BATCH_MAX {
            return Err(Refusal::BatchTooLarge);
        }
        let before = now.max(self.clock);
        if before > TIMESTAMP_MAX - events.len() as u64 {
            return Err(Refusal::ClockExhausted);
        }
        let mut failures = Vec::new();
        let mut start = 0;
        while start < events.len() {
            let rest = &events[start..];
            let chain = &rest[..chain_len(rest)];
            self.run_chain(chain, start, before + start as u64, &mut failures);
            start += chain.len();
        }
        E::list(self);
        self.clock = before + events.len() as u64;
        Ok(failures)
    }

    /// Stores a chain, or notes its failures. Its first event is judged at the timestamp after `before`.
    fn run_chain<E: Event>(
        &mut self,
        chain: &[E],
        start: usize,
        before: u64,
        failures: &mut Vec<Failure>,
    ) {
        let mark = E::stored(self);
        let (judged, open_end) = match chain.split_last() {
            Some((last, judged)) if last.is_linked() => (judged, true),
            _ => (chain, false),
        };
        let own = self.store_events(judged, before);
        if own.is_none() && !open_end {
            return;
        }
        while E::stored(self) > mark {
            E::take_back(self);
        }
        if let Some((place, outcome)) = own {
            judged[place].note_failure(self, outcome);
        }
        failures.extend((0..chain.len()).map(|place| Failure {
            index: (start + place) as u32,
            outcome: match own {
                _ if place == judged.len() => Outcome::LinkedEventChainOpen,
                Some((failed, outcome)) if failed == place => outcome,
                _ => Outcome::LinkedEventFailed,
            },
        }));
    }

    /// Stores events up to the first that isn't ok. The answer is its place and why.
    fn store_events<E: Event>(&mut self, events: &[E], before: u64) -> Option<(usize, Outcome)> {
        for (place, event) in events.iter().enumerate() {
            if let Err(outcome) = event.store(self, before + 1 + place as u64) {
                return Some((place, outcome));
            }
        }
        None
    }
}

/// How many of these events their first chain has: those up to the first that isn't linked, or all.
fn chain_len<E: Event>(events: &[E]) -> usize {
    let linked = events.iter().take_while(|event| event.is_linked()).count();
    events.len().min(linked + 1)
}
