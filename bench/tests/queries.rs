//! Queries over many transfers, with gaps between their timestamps, answer what a walk over all of them does.

use plain::batches::{batch_lengths, Batches};
use plain::events::{account_id, Ids, Transfers, ACCOUNTS, WITH_HISTORY};
use plain::keys::Generator;
use plain::ledger::{AccountBalance, AccountFilter, Ledger, QueryFilter, Transfer, BATCH_MAX};

const TRANSFERS: u64 = 30_000;

/// How many accounts all transfers move between, so that each has many of them. Some transfers would move between an
/// account and itself, and fail.
const FEW: u64 = 80;

const FILTERS: usize = 1_000;

/// A ledger, and all its transfers.
fn ledger() -> (Ledger, Vec<Transfer>) {
    let mut transfers = Transfers::new(1, Ids::Rising);
    let mut batches = Batches::over_accounts();
    for len in batch_lengths(TRANSFERS, BATCH_MAX as u64) {
        let mut events = transfers.batch(len);
        for event in &mut events {
            event.debit_account_id = one_of_few(event.debit_account_id);
            event.credit_account_id = one_of_few(event.credit_account_id);
        }
        batches.run(&events);
    }
    let ids: Vec<u128> = (1..=u128::from(TRANSFERS)).collect();
    let look_ups = ids.chunks(BATCH_MAX);
    let found = look_ups.map(|ids| batches.ledger.lookup_transfers(ids));
    let stored = found.flat_map(|rows| rows.expect("the look-up isn't refused"));
    let stored: Vec<Transfer> = stored.collect();
    assert!(stored.len() as u64 > TRANSFERS / 2 && (stored.len() as u64) < TRANSFERS);
    (batches.ledger, stored)
}

/// One of the few accounts, which is of the same ledger as the account with this id.
fn one_of_few(id: u128) -> u128 {
    account_id((id as u64 - 1) % FEW * (ACCOUNTS / FEW))
}

/// Random filters, whose fields are those of transfers.
struct Filters<'t> {
    numbers: Generator,
    transfers: &'t [Transfer],
}

impl<'t> Filters<'t> {
    fn new(transfers: &'t [Transfer]) -> Self {
        Filters {
            numbers: Generator::new(2),
            transfers,
        }
    }

    fn below(&mut self, bound: u64) -> u64 {
        self.numbers.number() % bound
    }

    /// A field, or 0 more often.
    fn or_none<V: Default>(&mut self, field: V) -> V {
        match self.below(3) {
            0 => field,
            _ => V::default(),
        }
    }

    fn transfer(&mut self) -> &'t Transfer {
        let place = self.below(self.transfers.len() as u64);
        &self.transfers[place as usize]
    }

    /// The least and the greatest timestamp, each 0 or that of a transfer.
    fn bounds(&mut self) -> (u64, u64) {
        let (one, other) = (self.transfer().timestamp, self.transfer().timestamp);
        let near = self.below(3) + one.min(other) - 1;
        (self.or_none(near), self.or_none(one.max(other)))
    }

    fn limit(&mut self) -> u32 {
        [1, 10, 200, u32::MAX][self.below(4) as usize]
    }

    fn query(&mut self) -> QueryFilter {
        let transfer = self.transfer();
        let (timestamp_min, timestamp_max) = self.bounds();
        QueryFilter {
            user_data_128: self.or_none(transfer.user_data_128),
            user_data_64: self.or_none(transfer.user_data_64),
            user_data_32: self.or_none(transfer.user_data_32),
            ledger: self.or_none(transfer.ledger),
            code: self.or_none(transfer.code),
            timestamp_min,
            timestamp_max,
            limit: self.limit(),
            flags: self.below(2) as u32,
            ..QueryFilter::default()
        }
    }

    fn account(&mut self) -> AccountFilter {
        let transfer = self.transfer();
        let query = self.query();
        AccountFilter {
            account_id: transfer.debit_account_id,
            user_data_128: query.user_data_128,
            user_data_64: self.or_none(transfer.user_data_64),
            user_data_32: self.or_none(transfer.user_data_32),
            code: self.or_none(transfer.code),
            timestamp_min: query.timestamp_min,
            timestamp_max: query.timestamp_max,
            limit: query.limit,
            flags: 1 + self.below(3) as u32 + 4 * self.below(2) as u32,
            ..AccountFilter::default()
        }
    }
}

fn meets<V: Default + PartialEq>(asked: V, field: V) -> bool {
    asked == V::default() || asked == field
}

/// Whether a query's filter accepts a transfer.
fn accepts(filter: &QueryFilter, transfer: &Transfer) -> bool {
    meets(filter.user_data_128, transfer.user_data_128)
        && meets(filter.user_data_64, transfer.user_data_64)
        && meets(filter.user_data_32, transfer.user_data_32)
        && meets(filter.ledger, transfer.ledger)
        && meets(filter.code, transfer.code)
        && filter.timestamp_min <= transfer.timestamp
        && (filter.timestamp_max == 0 || transfer.timestamp <= filter.timestamp_max)
}

/// Whether an account's filter accepts a transfer.
fn accepts_of_account(filter: &AccountFilter, transfer: &Transfer) -> bool {
    let query = QueryFilter {
        user_data_128: filter.user_data_128,
        user_data_64: filter.user_data_64,
        user_data_32: filter.user_data_32,
        code: filter.code,
        timestamp_min: filter.timestamp_min,
        timestamp_max: filter.timestamp_max,
        ..QueryFilter::default()
    };
    let debits = filter.flags & 1 != 0 && transfer.debit_account_id == filter.account_id;
    let credits = filter.flags & 2 != 0 && transfer.credit_account_id == filter.account_id;
    accepts(&query, transfer) && (debits || credits)
}

/// The first of the rows, or the last where they are asked for backwards.
fn answer<R>(rows: impl DoubleEndedIterator<Item = R>, is_reversed: bool, limit: u32) -> Vec<R> {
    let most = BATCH_MAX.min(limit as usize);
    if is_reversed {
        rows.rev().take(most).collect()
    } else {
        rows.take(most).collect()
    }
}

/// The balances of an account after each of its transfers, none of which is pending.
fn balances(id: u128, transfers: &[Transfer]) -> Vec<AccountBalance> {
    let (mut debits_posted, mut credits_posted) = (0, 0);
    let mut rows = Vec::new();
    for transfer in transfers {
        if transfer.debit_account_id == id {
            debits_posted += transfer.amount;
        } else if transfer.credit_account_id == id {
            credits_posted += transfer.amount;
        } else {
            continue;
        }
        rows.push(AccountBalance {
            debits_pending: 0,
            debits_posted,
            credits_pending: 0,
            credits_posted,
            timestamp: transfer.timestamp,
            reserved: [0; 56],
        });
    }
    rows
}

#[test]
fn queries_answer_what_a_walk_does() {
    let (ledger, transfers) = ledger();
    let mut filters = Filters::new(&transfers);
    for _ in 0..FILTERS {
        let filter = filters.query();
        let rows = transfers.iter().filter(|row| accepts(&filter, row));
        let expected = answer(rows.copied(), filter.flags & 1 != 0, filter.limit);
        assert_eq!(ledger.query_transfers(&filter), expected, "{filter:?}");
    }
}

#[test]
fn queries_of_accounts_answer_what_a_walk_does() {
    let (ledger, transfers) = ledger();
    let mut filters = Filters::new(&transfers);
    for _ in 0..FILTERS {
        let filter = filters.account();
        let rows = transfers.iter();
        let rows = rows.filter(|row| accepts_of_account(&filter, row));
        let expected = answer(rows.copied(), filter.flags & 4 != 0, filter.limit);
        assert_eq!(ledger.account_transfers(&filter), expected, "{filter:?}");
    }
}

#[test]
fn histories_are_the_balances_after_each_transfer() {
    let (ledger, transfers) = ledger();
    let mut filters = Filters::new(&transfers);
    for _ in 0..FILTERS {
        let filter = filters.account();
        let history = if filter.account_id < account_id(WITH_HISTORY) {
            balances(filter.account_id, &transfers)
        } else {
            Vec::new()
        };
        let timestamps: Vec<u64> = ledger
            .account_transfers(&filter)
            .iter()
            .map(|row| row.timestamp)
            .collect();
        let of_timestamp = |timestamp| history.iter().find(|row| row.timestamp == timestamp);
        let expected: Vec<AccountBalance> = timestamps
            .into_iter()
            .filter_map(|timestamp| of_timestamp(timestamp).copied())
            .collect();
        assert_eq!(ledger.account_balances(&filter), expected, "{filter:?}");
    }
}
