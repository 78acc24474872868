//! Workloads that query as many transfers as a run says.

use crate::batches::Batches;
use crate::events::{
    account_id, Ids, Transfers, ACCOUNTS, CODES, LEDGERS, USER_DATA_64, WITH_HISTORY,
};
use crate::keys::{mixed, Generator};
use crate::ledger::{AccountBalance, AccountFilter, Ledger, QueryFilter, Transfer, BATCH_MAX};
use crate::{measure, Measured, Run};
use std::thread;

/// How many queries of an account, or of a code in a time, a workload makes.
pub const QUERIES: u64 = 10_000;

/// How many queries of a value of `user_data_64` in a ledger a workload makes.
pub const VALUES: u64 = 1_000;

/// How many queries of a code in a ledger a workload makes.
pub const CODES_IN_LEDGERS: u64 = 100;

/// How many rows a short answer has at most, and a long one.
pub const SHORT: u32 = 10;
pub const LONG: u32 = 200;

/// Which part of all time a query asks for: one of so many.
const TIMES: u64 = 100;

pub const BOTH: u32 = AccountFilter::DEBITS | AccountFilter::CREDITS;

/// The first transfers of any account.
pub fn account_first(run: Run, limit: u32) -> Measured {
    of_accounts(run, limit, BOTH, ACCOUNTS, |ledger, filter| {
        timestamps(&ledger.account_transfers(filter))
    })
}

/// The last transfers of any account, the latest first.
pub fn account_last(run: Run, limit: u32) -> Measured {
    let flags = BOTH | AccountFilter::REVERSED;
    of_accounts(run, limit, flags, ACCOUNTS, |ledger, filter| {
        timestamps(&ledger.account_transfers(filter))
    })
}

/// The first balances of any account with history.
pub fn balances(run: Run, limit: u32) -> Measured {
    of_accounts(run, limit, BOTH, WITH_HISTORY, |ledger, filter| {
        balances_sum(&ledger.account_balances(filter))
    })
}

/// Asks for the rows of one random account after another, of so many accounts.
fn of_accounts(
    run: Run,
    limit: u32,
    flags: u32,
    accounts: u64,
    answer: impl Fn(&Ledger, &AccountFilter) -> u64,
) -> Measured {
    let ledger = ledger(run, Ids::Rising);
    let mut numbers = Generator::new(run.seed);
    let filters = (0..QUERIES).map(|_| of_account(&mut numbers, accounts, limit, flags));
    measure_all(filters.collect(), |filter| answer(&ledger, filter))
}

/// A filter of one of so many accounts.
pub fn of_account(numbers: &mut Generator, accounts: u64, limit: u32, flags: u32) -> AccountFilter {
    AccountFilter {
        account_id: account_id(numbers.number() % accounts),
        limit,
        flags,
        ..AccountFilter::default()
    }
}

/// The transfers of any code in a hundredth of all time.
pub fn code_in_time(run: Run) -> Measured {
    let ledger = ledger(run, Ids::Rising);
    let span = ledger.clock() / TIMES;
    let mut numbers = Generator::new(run.seed);
    let filters = (0..QUERIES).map(|_| {
        let start = 1 + numbers.number() % (ledger.clock() - span);
        QueryFilter {
            code: 1 + (numbers.number() % CODES) as u16,
            timestamp_min: start,
            timestamp_max: start + span,
            limit: u32::MAX,
            ..QueryFilter::default()
        }
    });
    measure_queries(&ledger, filters.collect())
}

/// The transfers with any value of `user_data_64` in any ledger.
pub fn user_data_64_with_ledger(run: Run) -> Measured {
    let mut numbers = Generator::new(run.seed);
    let filters = (0..VALUES).map(|_| value_in_ledger(&mut numbers));
    measure_queries(&ledger(run, Ids::Rising), filters.collect())
}

fn value_in_ledger(numbers: &mut Generator) -> QueryFilter {
    QueryFilter {
        user_data_64: 1 + numbers.number() % USER_DATA_64,
        ledger: 1 + (numbers.number() % LEDGERS) as u32,
        limit: u32::MAX,
        ..QueryFilter::default()
    }
}

/// As many transfers as an answer has room for, of any code in any ledger.
pub fn ledger_with_code(run: Run) -> Measured {
    let mut numbers = Generator::new(run.seed);
    let filters = (0..CODES_IN_LEDGERS).map(|_| QueryFilter {
        ledger: 1 + (numbers.number() % LEDGERS) as u32,
        code: 1 + (numbers.number() % CODES) as u16,
        limit: u32::MAX,
        ..QueryFilter::default()
    });
    measure_queries(&ledger(run, Ids::Rising), filters.collect())
}

fn measure_queries(ledger: &Ledger, filters: Vec<QueryFilter>) -> Measured {
    measure_all(filters, |filter| {
        timestamps(&ledger.query_transfers(filter))
    })
}

/// A question of one of four kinds.
enum Question {
    Transfers(AccountFilter),
    Balances(AccountFilter),
    Found(QueryFilter),
}

enum Answer {
    Transfers(Vec<Transfer>),
    Balances(Vec<AccountBalance>),
}

impl Question {
    /// The question at a place: the four kinds take turns.
    fn at(numbers: &mut Generator, place: u64) -> Self {
        let back = BOTH | AccountFilter::REVERSED;
        match place % 4 {
            0 => Question::Transfers(of_account(numbers, ACCOUNTS, SHORT, BOTH)),
            1 => Question::Transfers(of_account(numbers, ACCOUNTS, LONG, back)),
            2 => Question::Balances(of_account(numbers, WITH_HISTORY, LONG, BOTH)),
            _ => Question::Found(value_in_ledger(numbers)),
        }
    }

    fn answer(&self, ledger: &Ledger) -> Answer {
        match self {
            Question::Transfers(filter) => Answer::Transfers(ledger.account_transfers(filter)),
            Question::Balances(filter) => Answer::Balances(ledger.account_balances(filter)),
            Question::Found(filter) => Answer::Transfers(ledger.query_transfers(filter)),
        }
    }
}

impl Answer {
    fn sum(&self) -> u64 {
        match self {
            Answer::Transfers(rows) => timestamps(rows),
            Answer::Balances(rows) => balances_sum(rows),
        }
    }
}

/// Queries of four kinds at once, on all processors.
pub fn all(run: Run) -> Measured {
    let ledger = ledger(run, Ids::Rising);
    let mut numbers = Generator::new(run.seed);
    let questions = (0..QUERIES).map(|place| Question::at(&mut numbers, place));
    let questions: Vec<Question> = questions.collect();
    measure(|| {
        let answers = all_answers(&ledger, &questions);
        answers.iter().map(Answer::sum).fold(0, mixed)
    })
}

/// The answers in order, shared out among as many threads as there are processors.
fn all_answers(ledger: &Ledger, questions: &[Question]) -> Vec<Answer> {
    let threads = thread::available_parallelism().map_or(1, usize::from);
    let parts = questions.chunks(questions.len().div_ceil(threads));
    thread::scope(|scope| {
        let spawned = parts.map(|part| {
            scope.spawn(move || {
                let answers = part.iter().map(|question| question.answer(ledger));
                answers.collect::<Vec<Answer>>()
            })
        });
        let spawned: Vec<_> = spawned.collect();
        let joined = spawned.into_iter().map(|part| part.join());
        joined
            .flat_map(|answers| answers.expect("no query panics"))
            .collect()
    })
}

/// The order in which transfers are looked up.
#[derive(Clone, Copy)]
pub enum Order {
    /// That of their ids.
    OfIds,
    /// That in which they were stored.
    AsStored,
}

/// Looks up each transfer once, in the largest look-ups, in an order.
pub fn look_up(run: Run, ids: Ids, order: Order) -> Measured {
    let ledger = ledger(run, ids);
    let mut transfers = Transfers::new(run.seed, ids);
    let mut wanted: Vec<u128> = (0..run.count).map(|_| transfers.transfer().id).collect();
    if let Order::OfIds = order {
        wanted.sort_unstable();
    }
    let look_ups = wanted.chunks(BATCH_MAX).collect();
    measure_all(look_ups, |ids: &&[u128]| {
        let found = ledger.lookup_transfers(ids);
        timestamps(&found.expect("the look-up isn't refused"))
    })
}

/// A ledger with as many transfers as the run says.
fn ledger(run: Run, ids: Ids) -> Ledger {
    Batches::ingested(&mut Transfers::new(run.seed, ids), run)
}

/// Times the answers to all questions.
fn measure_all<Q>(questions: Vec<Q>, answer: impl Fn(&Q) -> u64) -> Measured {
    measure(|| {
        let answers = questions.iter().map(answer);
        answers.fold(0, mixed)
    })
}

/// A sum of the timestamps of all rows, and of what was debited.
fn balances_sum(rows: &[AccountBalance]) -> u64 {
    rows.iter().fold(0, |sum, row| {
        mixed(mixed(sum, row.timestamp), row.debits_posted as u64)
    })
}

/// A sum of the timestamps of all rows.
pub fn timestamps(rows: &[Transfer]) -> u64 {
    rows.iter().fold(0, |sum, row| mixed(sum, row.timestamp))
}
