//! The text of a script that stores and asks.

use crate::batches::batch_lengths;
use crate::events::{accounts, Ids, Transfers, ACCOUNTS};
use crate::keys::Generator;
use crate::ledger::{Account, Transfer, BATCH_MAX};
use crate::queries::{of_account, BOTH, SHORT};
use crate::Run;
use std::fmt::Write;

/// How many queries follow each batch.
const QUERIES: u64 = 100;

/// A script that stores all accounts, and as many transfers as the run says in batches of the greatest length. Each is
/// published, and followed by queries of the first transfers of an account.
pub fn text(run: Run) -> String {
    let mut text = String::new();
    for events in accounts().chunks(BATCH_MAX) {
        batch(&mut text, "accounts", events.iter().map(account));
    }
    let mut transfers = Transfers::new(run.seed, Ids::Rising);
    let mut numbers = Generator::new(run.seed);
    for len in batch_lengths(run.count, BATCH_MAX as u64) {
        let events = transfers.batch(len);
        batch(&mut text, "transfers", events.iter().map(transfer));
        text += "publish\n";
        for _ in 0..QUERIES {
            let filter = of_account(&mut numbers, ACCOUNTS, SHORT, BOTH);
            put(
                &mut text,
                format_args!(
                    "get_account_transfers account_id={} limit={} flags={}\n",
                    filter.account_id, filter.limit, filter.flags
                ),
            );
        }
    }
    text
}

/// A batch of events, at moment 0.
fn batch(text: &mut String, verb: &str, events: impl Iterator<Item = String>) {
    put(text, format_args!("{verb} 0\n"));
    events.for_each(|event| *text += &event);
    *text += "end\n";
}

fn account(account: &Account) -> String {
    format!(
        "+ id={} ledger={} code={} flags={}\n",
        account.id, account.ledger, account.code, account.flags
    )
}

fn transfer(transfer: &Transfer) -> String {
    format!(
        "+ id={} debit_account_id={} credit_account_id={} amount={} user_data_128={} user_data_64={} user_data_32={} \
         ledger={} code={}\n",
        transfer.id,
        transfer.debit_account_id,
        transfer.credit_account_id,
        transfer.amount,
        transfer.user_data_128,
        transfer.user_data_64,
        transfer.user_data_32,
        transfer.ledger,
        transfer.code
    )
}

fn put(text: &mut String, line: std::fmt::Arguments<'_>) {
    text.write_fmt(line).expect("a string takes all");
}
