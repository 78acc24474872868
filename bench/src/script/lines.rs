//! The lines that scripts print.

use crate::ledger::{Account, AccountBalance, Failure, Refusal, Transfer};
use std::fmt::Write;

/// The lines of a batch: each event that failed, and the clock.
pub fn batch(reply: Result<Vec<Failure>, Refusal>, clock: u64) -> String {
    let failures = match reply {
        Ok(failures) => failures,
        Err(refusal) => return refused(refusal),
    };
    let mut lines = String::new();
    for failure in failures {
        writeln!(lines, "{} {}", failure.index, failure.outcome.name())
            .expect("a string takes all");
    }
    lines + &format!("clock {clock}\n")
}

/// The lines of a pulse: how many transfers expired, and the clock.
pub fn pulse(reply: Result<u32, Refusal>, clock: u64) -> String {
    match reply {
        Ok(count) => format!("expired {count}\nclock {clock}\n"),
        Err(refusal) => refused(refusal),
    }
}

/// The lines of an answer: its rows, and their number.
pub fn rows<R>(rows: Result<Vec<R>, Refusal>, line: impl Fn(&R) -> String) -> String {
    match rows {
        Ok(rows) => {
            let lines: String = rows.iter().map(line).collect();
            lines + &format!("rows {}\n", rows.len())
        }
        Err(refusal) => refused(refusal),
    }
}

fn refused(refusal: Refusal) -> String {
    format!("refused {}\n", refusal.name())
}

pub fn account(row: &Account) -> String {
    format!(
        "account id={} debits_pending={} debits_posted={} credits_pending={} credits_posted={} user_data_128={} \
         user_data_64={} user_data_32={} ledger={} code={} flags={} timestamp={}\n",
        row.id,
        row.debits_pending,
        row.debits_posted,
        row.credits_pending,
        row.credits_posted,
        row.user_data_128,
        row.user_data_64,
        row.user_data_32,
        row.ledger,
        row.code,
        row.flags,
        row.timestamp
    )
}

pub fn transfer(row: &Transfer) -> String {
    format!(
        "transfer id={} debit_account_id={} credit_account_id={} amount={} pending_id={} user_data_128={} \
         user_data_64={} user_data_32={} timeout={} ledger={} code={} flags={} timestamp={}\n",
        row.id,
        row.debit_account_id,
        row.credit_account_id,
        row.amount,
        row.pending_id,
        row.user_data_128,
        row.user_data_64,
        row.user_data_32,
        row.timeout,
        row.ledger,
        row.code,
        row.flags,
        row.timestamp
    )
}

pub fn balance(row: &AccountBalance) -> String {
    format!(
        "balance debits_pending={} debits_posted={} credits_pending={} credits_posted={} timestamp={}\n",
        row.debits_pending, row.debits_posted, row.credits_pending, row.credits_posted, row.timestamp
    )
}
