//! Records as scripts spell them: field by field, or as the digits of their bytes.

use super::values::{flags, number, Bytes};
use crate::ledger::{Account, AccountFilter, QueryFilter, Transfer};

/// A record that scripts spell.
pub trait Record: Default {
    const SIZE: usize;

    /// Gives a field its value.
    fn set(&mut self, field: &str, value: &str) -> Option<()>;

    /// The record in its bytes.
    fn from_bytes(bytes: Bytes) -> Self;
}

/// The record that words `FIELD=VALUE` spell.
pub fn from_fields<R: Record>(words: &[&str]) -> Option<R> {
    let mut record = R::default();
    for word in words {
        let (field, value) = word.split_once('=')?;
        record.set(field, value)?;
    }
    Some(record)
}

/// The record whose bytes a word spells.
pub fn from_hex<R: Record>(words: &[&str]) -> Option<R> {
    match words {
        [word] => Some(R::from_bytes(Bytes::from_hex(word, R::SIZE)?)),
        _ => None,
    }
}

const ACCOUNT_FLAGS: [&str; 6] = [
    "linked",
    "debits_must_not_exceed_credits",
    "credits_must_not_exceed_debits",
    "history",
    "imported",
    "closed",
];

const TRANSFER_FLAGS: [&str; 9] = [
    "linked",
    "pending",
    "post_pending_transfer",
    "void_pending_transfer",
    "balancing_debit",
    "balancing_credit",
    "closing_debit",
    "closing_credit",
    "imported",
];

const ACCOUNT_FILTER_FLAGS: [&str; 3] = ["debits", "credits", "reversed"];

const QUERY_FILTER_FLAGS: [&str; 1] = ["reversed"];

impl Record for Account {
    const SIZE: usize = 128;

    fn set(&mut self, field: &str, value: &str) -> Option<()> {
        match field {
            "id" => self.id = number(value)?,
            "debits_pending" => self.debits_pending = number(value)?,
            "debits_posted" => self.debits_posted = number(value)?,
            "credits_pending" => self.credits_pending = number(value)?,
            "credits_posted" => self.credits_posted = number(value)?,
            "user_data_128" => self.user_data_128 = number(value)?,
            "user_data_64" => self.user_data_64 = number(value)?,
            "user_data_32" => self.user_data_32 = number(value)?,
            "reserved" => self.reserved = number(value)?,
            "ledger" => self.ledger = number(value)?,
            "code" => self.code = number(value)?,
            "flags" => self.flags = flags(value, &ACCOUNT_FLAGS)?,
            "timestamp" => self.timestamp = number(value)?,
            _ => return None,
        }
        Some(())
    }

    fn from_bytes(mut bytes: Bytes) -> Self {
        Account {
            id: bytes.number(),
            debits_pending: bytes.number(),
            debits_posted: bytes.number(),
            credits_pending: bytes.number(),
            credits_posted: bytes.number(),
            user_data_128: bytes.number(),
            user_data_64: bytes.number(),
            user_data_32: bytes.number(),
            reserved: bytes.number(),
            ledger: bytes.number(),
            code: bytes.number(),
            flags: bytes.number(),
            timestamp: bytes.number(),
        }
    }
}

impl Record for Transfer {
    const SIZE: usize = 128;

    fn set(&mut self, field: &str, value: &str) -> Option<()> {
        match field {
            "id" => self.id = number(value)?,
            "debit_account_id" => self.debit_account_id = number(value)?,
            "credit_account_id" => self.credit_account_id = number(value)?,
            "amount" => self.amount = number(value)?,
            "pending_id" => self.pending_id = number(value)?,
            "user_data_128" => self.user_data_128 = number(value)?,
            "user_data_64" => self.user_data_64 = number(value)?,
            "user_data_32" => self.user_data_32 = number(value)?,
            "timeout" => self.timeout = number(value)?,
            "ledger" => self.ledger = number(value)?,
            "code" => self.code = number(value)?,
            "flags" => self.flags = flags(value, &TRANSFER_FLAGS)?,
            "timestamp" => self.timestamp = number(value)?,
            _ => return None,
        }
        Some(())
    }

    fn from_bytes(mut bytes: Bytes) -> Self {
        Transfer {
            id: bytes.number(),
            debit_account_id: bytes.number(),
            credit_account_id: bytes.number(),
            amount: bytes.number(),
            pending_id: bytes.number(),
            user_data_128: bytes.number(),
            user_data_64: bytes.number(),
            user_data_32: bytes.number(),
            timeout: bytes.number(),
            ledger: bytes.number(),
            code: bytes.number(),
            flags: bytes.number(),
            timestamp: bytes.number(),
        }
    }
}

impl Record for AccountFilter {
    const SIZE: usize = 128;

    fn set(&mut self, field: &str, value: &str) -> Option<()> {
        match field {
            "account_id" => self.account_id = number(value)?,
            "user_data_128" => self.user_data_128 = number(value)?,
            "user_data_64" => self.user_data_64 = number(value)?,
            "user_data_32" => self.user_data_32 = number(value)?,
            "code" => self.code = number(value)?,
            "timestamp_min" => self.timestamp_min = number(value)?,
            "timestamp_max" => self.timestamp_max = number(value)?,
            "limit" => self.limit = number(value)?,
            "flags" => self.flags = flags(value, &ACCOUNT_FILTER_FLAGS)?,
            _ => return None,
        }
        Some(())
    }

    fn from_bytes(mut bytes: Bytes) -> Self {
        AccountFilter {
            account_id: bytes.number(),
            user_data_128: bytes.number(),
            user_data_64: bytes.number(),
            user_data_32: bytes.number(),
            code: bytes.number(),
            reserved: bytes.array(),
            timestamp_min: bytes.number(),
            timestamp_max: bytes.number(),
            limit: bytes.number(),
            flags: bytes.number(),
        }
    }
}

impl Record for QueryFilter {
    const SIZE: usize = 64;

    fn set(&mut self, field: &str, value: &str) -> Option<()> {
        match field {
            "user_data_128" => self.user_data_128 = number(value)?,
            "user_data_64" => self.user_data_64 = number(value)?,
            "user_data_32" => self.user_data_32 = number(value)?,
            "ledger" => self.ledger = number(value)?,
            "code" => self.code = number(value)?,
            "timestamp_min" => self.timestamp_min = number(value)?,
            "timestamp_max" => self.timestamp_max = number(value)?,
            "limit" => self.limit = number(value)?,
            "flags" => self.flags = flags(value, &QUERY_FILTER_FLAGS)?,
            _ => return None,
        }
        Some(())
    }

    fn from_bytes(mut bytes: Bytes) -> Self {
        QueryFilter {
            user_data_128: bytes.number(),
            user_data_64: bytes.number(),
            user_data_32: bytes.number(),
            ledger: bytes.number(),
            code: bytes.number(),
            reserved: bytes.array(),
            timestamp_min: bytes.number(),
            timestamp_max: bytes.number(),
            limit: bytes.number(),
            flags: bytes.number(),
        }
    }
}
