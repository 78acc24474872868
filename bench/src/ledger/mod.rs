//! A ledger as one would write it by hand in plain Rust, with the behaviour of the proved one.
//!
//! Records stand in two vectors, accounts and transfers, in the order in which they were stored. All else refers to them
//! by their places, which have four bytes: slots of eight bytes, by which they are found by id; lists, of each value of a
//! searched field and of each side of an account; and the set of open pending transfers with a timeout, by their expiry.
//! The sums of an account, whether it is closed, and what became of a pending transfer are changed where they stand. The
//! lists, the histories and the set are brought up to date once at the end of a batch, one after the other. A chain that
//! fails takes back what it stored, last first, by the records themselves. There are no snapshots: a query reads what is
//! stored now. The program ends where memory is refused, or a place has no number.
//!
//! The flags `balancing_debit`, `balancing_credit` and `imported` aren't served here either: they are `reserved_flag`.

mod accounts;
mod batch;
mod bounds;
mod expiries;
mod fields;
mod filter;
mod hash;
mod limits;
mod outcome;
mod place;
mod pulse;
mod query;
mod record;
mod records;
mod reply;
mod sequence;
mod slots;
mod store;
mod transfers;
mod union;
mod verdict;

pub use limits::{AMOUNT_MAX, BATCH_MAX, ID_MAX, TIMESTAMP_MAX};
pub use outcome::Outcome;
pub use records::{Account, AccountBalance, AccountFilter, QueryFilter, Transfer};
pub use reply::{Failure, Refusal};

use accounts::Accounts;
use expiries::Expiries;
use transfers::Transfers;

/// Accounts and transfers, and the clock after which the next timestamps are given out.
#[derive(Default)]
pub struct Ledger {
    clock: u64,
    accounts: Accounts,
    transfers: Transfers,
    expiries: Expiries,
    /// How many transfers the lists of accounts, the histories and the expiries are up to date with.
    listed: usize,
}

impl Ledger {
    /// The moment after which the next timestamps are given out, in nanoseconds. 0 at first.
    pub fn clock(&self) -> u64 {
        self.clock
    }
}
