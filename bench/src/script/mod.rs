//! Scripts, run over an empty ledger. Scripts with a fault aren't served.

mod lines;
mod records;
mod text;
mod values;

use crate::ledger::{Account, AccountFilter, Ledger, QueryFilter, Transfer};
use records::{from_fields, from_hex, Record};
pub use text::text;
use values::number;

/// What a script prints.
pub fn answer(script: &str) -> String {
    let mut run = Run::default();
    for (place, line) in script.lines().enumerate() {
        let words: Vec<&str> = line.split(' ').filter(|word| !word.is_empty()).collect();
        run.line(&words)
            .unwrap_or_else(|| panic!("line {} has a fault: {line}", place + 1));
    }
    assert!(run.batch.is_none(), "a batch has no end");
    run.output
}

/// A run of a script up to some line.
#[derive(Default)]
struct Run {
    ledger: Ledger,
    batch: Option<Batch>,
    output: String,
}

/// The batch that is open: its moment and its events so far.
enum Batch {
    Accounts(u64, Vec<Account>),
    Transfers(u64, Vec<Transfer>),
}

impl Run {
    /// Does what a line asks for, or nothing where it has a fault.
    fn line(&mut self, words: &[&str]) -> Option<()> {
        let Some((first, rest)) = words.split_first() else {
            return Some(());
        };
        if first.starts_with('#') {
            return Some(());
        }
        match &mut self.batch {
            Some(Batch::Accounts(_, events)) if *first != "end" => events.push(event(first, rest)?),
            Some(Batch::Transfers(_, events)) if *first != "end" => {
                events.push(event(first, rest)?)
            }
            Some(_) if rest.is_empty() => self.end_batch(),
            Some(_) => return None,
            None => self.command(first, rest)?,
        }
        Some(())
    }

    fn end_batch(&mut self) {
        let reply = match self.batch.take() {
            Some(Batch::Accounts(now, events)) => self.ledger.create_accounts(&events, now),
            Some(Batch::Transfers(now, events)) => self.ledger.create_transfers(&events, now),
            None => return,
        };
        self.output += &lines::batch(reply, self.ledger.clock());
    }

    fn command(&mut self, verb: &str, words: &[&str]) -> Option<()> {
        match (verb, words) {
            ("accounts", [now]) => self.batch = Some(Batch::Accounts(number(now)?, Vec::new())),
            ("transfers", [now]) => self.batch = Some(Batch::Transfers(number(now)?, Vec::new())),
            ("pulse", [now, most]) => {
                let reply = self.ledger.pulse(number(now)?, number(most)?);
                self.output += &lines::pulse(reply, self.ledger.clock());
            }
            ("publish", []) => self.output += "published\n",
            ("compact", []) => self.output += "compacted\n",
            _ => self.output += &self.query(verb, words)?,
        }
        Some(())
    }

    /// The lines of a query or look-up.
    fn query(&self, verb: &str, words: &[&str]) -> Option<String> {
        let ledger = &self.ledger;
        Some(match verb {
            "get_account_transfers" => {
                let filter = filter::<AccountFilter>(words)?;
                lines::rows(Ok(ledger.account_transfers(&filter)), lines::transfer)
            }
            "get_account_balances" => {
                let filter = filter::<AccountFilter>(words)?;
                lines::rows(Ok(ledger.account_balances(&filter)), lines::balance)
            }
            "query_accounts" => {
                let filter = filter::<QueryFilter>(words)?;
                lines::rows(Ok(ledger.query_accounts(&filter)), lines::account)
            }
            "query_transfers" => {
                let filter = filter::<QueryFilter>(words)?;
                lines::rows(Ok(ledger.query_transfers(&filter)), lines::transfer)
            }
            "lookup_accounts" => lines::rows(ledger.lookup_accounts(&ids(words)?), lines::account),
            "lookup_transfers" => {
                lines::rows(ledger.lookup_transfers(&ids(words)?), lines::transfer)
            }
            _ => return None,
        })
    }
}

/// An event of a batch.
fn event<R: Record>(first: &str, words: &[&str]) -> Option<R> {
    match first {
        "+" => from_fields(words),
        "raw" => from_hex(words),
        _ => None,
    }
}

/// The filter of a query.
fn filter<R: Record>(words: &[&str]) -> Option<R> {
    match words {
        ["raw", bytes @ ..] => from_hex(bytes),
        _ => from_fields(words),
    }
}

/// The ids of a look-up.
fn ids(words: &[&str]) -> Option<Vec<u128>> {
    words.iter().map(|word| number(word)).collect()
}
