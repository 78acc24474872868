//! Queries and look-ups.
//!
//! Of the lists that a filter could read, the shortest leads: that of a field, or the account's own. What it lists is
//! fetched and tested against the whole filter. To seek in the other lists first was measured and is no faster.

use super::accounts::{Activity, Balance};
use super::bounds::Span;
use super::fields::FieldIndex;
use super::limits::BATCH_MAX;
use super::place::Place;
use super::record::Record;
use super::records::{Account, AccountBalance, AccountFilter, QueryFilter, Transfer};
use super::reply::Refusal;
use super::sequence::Sequence;
use super::transfers::Transfers;
use super::union::Union;
use super::Ledger;

impl Ledger {
    /// The accounts with these ids, in the order of the ids.
    pub fn lookup_accounts(&self, ids: &[u128]) -> Result<Vec<Account>, Refusal> {
        check_count(ids)?;
        Ok(looked_up(&self.accounts.records, ids))
    }

    /// The transfers with these ids, in the order of the ids.
    pub fn lookup_transfers(&self, ids: &[u128]) -> Result<Vec<Transfer>, Refusal> {
        check_count(ids)?;
        Ok(looked_up(&self.transfers.records, ids))
    }

    /// The accounts that a filter asks for; none where it isn't valid.
    pub fn query_accounts(&self, filter: &QueryFilter) -> Vec<Account> {
        found(&self.accounts.records, &self.accounts.index, filter)
    }

    /// The transfers that a filter asks for; none where it isn't valid.
    pub fn query_transfers(&self, filter: &QueryFilter) -> Vec<Transfer> {
        found(&self.transfers.records, &self.transfers.index, filter)
    }

    /// The transfers of an account that a filter asks for; none where it isn't valid.
    pub fn account_transfers(&self, filter: &AccountFilter) -> Vec<Transfer> {
        match self.asked_account(filter) {
            Some(place) => filter
                .order()
                .answer(self.of_account(place, filter).copied()),
            None => Vec::new(),
        }
    }

    /// The balances of an account with history right after each transfer that a filter asks for; none where it isn't
    /// valid.
    pub fn account_balances(&self, filter: &AccountFilter) -> Vec<AccountBalance> {
        let Some(place) = self.asked_account(filter) else {
            return Vec::new();
        };
        let history = &self.accounts.activity(place).history;
        if history.is_empty() {
            return Vec::new();
        }
        if filter.asks_for_all() {
            let rows = filter.bounds().span().cut(history, |row| row.timestamp);
            return filter.order().answer(rows.iter().map(shown));
        }
        let rows = self.of_account(place, filter).map(|transfer| {
            let earlier = history.partition_point(|row| row.timestamp < transfer.timestamp);
            shown(&history[earlier])
        });
        filter.order().answer(rows)
    }

    /// The place of the account that a valid filter names, if it is stored.
    fn asked_account(&self, filter: &AccountFilter) -> Option<Place<Account>> {
        if !filter.is_valid() {
            return None;
        }
        self.accounts.records.find(filter.account_id)
    }

    /// The transfers of the account at a place that a filter asks for.
    fn of_account<'l>(
        &'l self,
        place: Place<Account>,
        filter: &'l AccountFilter,
    ) -> impl DoubleEndedIterator<Item = &'l Transfer> {
        let Transfers { records, index, .. } = &self.transfers;
        let span = records.places(filter.bounds().span());
        let own = listed(self.accounts.activity(place), filter, span);
        let lead = match index.shortest(&filter.asked(), span) {
            Some(list) if list.len() < own.len() => Union::new(list, &[]),
            _ => own,
        };
        lead.map(|place| &records[place])
            .filter(|transfer| filter.accepts(transfer))
    }
}

/// The places of an account's transfers on the sides that a filter asks for, within a span.
fn listed<'l>(
    activity: &'l Activity,
    filter: &AccountFilter,
    span: Span<Place<Transfer>>,
) -> Union<'l, Place<Transfer>> {
    let side = |list: &'l [Place<Transfer>], flag| match filter.has(flag) {
        true => span.cut(list, |place| *place),
        false => &[],
    };
    Union::new(
        side(&activity.debits, AccountFilter::DEBITS),
        side(&activity.credits, AccountFilter::CREDITS),
    )
}

/// The records with these ids, in the order of the ids.
fn looked_up<T: Record>(records: &Sequence<T>, ids: &[u128]) -> Vec<T> {
    let mut found = Vec::with_capacity(ids.len());
    found.extend(ids.iter().filter_map(|id| records.get(*id)));
    found
}

/// The records that a filter asks for.
fn found<T: Record>(records: &Sequence<T>, index: &FieldIndex<T>, filter: &QueryFilter) -> Vec<T> {
    if !filter.is_valid() {
        return Vec::new();
    }
    let asked = filter.asked();
    let span = records.places(filter.bounds().span());
    let Some(list) = index.shortest(&asked, span) else {
        return filter.order().answer(records.within(span).iter().copied());
    };
    let rows = list.iter().map(|place| &records[*place]);
    let rows = rows.filter(|row| asked.are_met_by(&row.fields()));
    filter.order().answer(rows.copied())
}

/// A row of a history as answers show it.
fn shown(balance: &Balance) -> AccountBalance {
    AccountBalance {
        debits_pending: balance.debits_pending,
        debits_posted: balance.debits_posted,
        credits_pending: balance.credits_pending,
        credits_posted: balance.credits_posted,
        timestamp: balance.timestamp,
        reserved: [0; 56],
    }
}

fn check_count(ids: &[u128]) -> Result<(), Refusal> {
    if ids.len() > BATCH_MAX {
        Err(Refusal::BatchTooLarge)
    } else {
        Ok(())
    }
}
