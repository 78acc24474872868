//! What filters ask for.

use super::bounds::Bounds;
use super::fields::Fields;
use super::limits::{BATCH_MAX, ID_MAX};
use super::record::Record;
use super::records::{AccountFilter, QueryFilter, Transfer};

/// In which order an answer's rows stand, and how many there are at most.
pub struct Order {
    is_reversed: bool,
    most: usize,
}

impl Order {
    fn new(is_reversed: bool, limit: u32) -> Self {
        Order {
            is_reversed,
            most: BATCH_MAX.min(limit as usize),
        }
    }

    /// The answer, from all rows that are accepted, by rising timestamp.
    pub fn answer<R>(&self, rows: impl DoubleEndedIterator<Item = R>) -> Vec<R> {
        let room = rows.size_hint().1.unwrap_or(self.most).min(self.most);
        let mut answer = Vec::with_capacity(room);
        if self.is_reversed {
            answer.extend(rows.rev().take(self.most));
        } else {
            answer.extend(rows.take(self.most));
        }
        answer
    }
}

impl AccountFilter {
    /// What it asks of the fields of a transfer.
    pub(super) fn asked(&self) -> Fields {
        Fields {
            user_data_128: self.user_data_128,
            user_data_64: self.user_data_64,
            user_data_32: self.user_data_32,
            ledger: 0,
            code: self.code,
        }
    }

    pub(super) fn bounds(&self) -> Bounds {
        Bounds {
            least: self.timestamp_min,
            greatest: self.timestamp_max,
        }
    }

    pub(super) fn order(&self) -> Order {
        Order::new(self.has(Self::REVERSED), self.limit)
    }

    /// Whether it names an account and a side, its bounds and its limit can be met, and nothing reserved is set.
    pub(super) fn is_valid(&self) -> bool {
        let sides = Self::DEBITS | Self::CREDITS;
        self.account_id != 0
            && self.account_id != ID_MAX
            && self.bounds().are_valid()
            && self.limit != 0
            && self.has(sides)
            && self.reserved.iter().all(|byte| *byte == 0)
            && !self.has(!(sides | Self::REVERSED))
    }

    /// Whether it asks for all transfers of its account within its bounds.
    pub(super) fn asks_for_all(&self) -> bool {
        self.has(Self::DEBITS) && self.has(Self::CREDITS) && self.asked().ask_nothing()
    }

    /// Whether a transfer within the bounds is asked for.
    pub(super) fn accepts(&self, transfer: &Transfer) -> bool {
        let is_debited = transfer.debit_account_id == self.account_id;
        let is_credited = transfer.credit_account_id == self.account_id;
        self.asked().are_met_by(&transfer.fields())
            && ((self.has(Self::DEBITS) && is_debited) || (self.has(Self::CREDITS) && is_credited))
    }
}

impl QueryFilter {
    /// What it asks of the fields of a record.
    pub(super) fn asked(&self) -> Fields {
        Fields {
            user_data_128: self.user_data_128,
            user_data_64: self.user_data_64,
            user_data_32: self.user_data_32,
            ledger: self.ledger,
            code: self.code,
        }
    }

    pub(super) fn bounds(&self) -> Bounds {
        Bounds {
            least: self.timestamp_min,
            greatest: self.timestamp_max,
        }
    }

    pub(super) fn order(&self) -> Order {
        Order::new(self.has(Self::REVERSED), self.limit)
    }

    /// Whether its bounds and its limit can be met, and nothing reserved is set.
    pub(super) fn is_valid(&self) -> bool {
        self.bounds().are_valid()
            && self.limit != 0
            && self.reserved.iter().all(|byte| *byte == 0)
            && !self.has(!Self::REVERSED)
    }
}
