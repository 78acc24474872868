//! The records that go in and come out, field by field as in TigerBeetle's reference.

/// An account: as an event what is asked for, as an answer with its sums of now.
#[derive(Clone, Copy, Debug, Default, PartialEq, Eq)]
pub struct Account {
    pub id: u128,
    pub debits_pending: u128,
    pub debits_posted: u128,
    pub credits_pending: u128,
    pub credits_posted: u128,
    pub user_data_128: u128,
    pub user_data_64: u64,
    pub user_data_32: u32,
    pub reserved: u32,
    pub ledger: u32,
    pub code: u16,
    pub flags: u16,
    /// Nanoseconds. 0 in an event.
    pub timestamp: u64,
}

impl Account {
    pub const LINKED: u16 = 1;
    pub const DEBITS_MUST_NOT_EXCEED_CREDITS: u16 = 2;
    pub const CREDITS_MUST_NOT_EXCEED_DEBITS: u16 = 4;
    pub const HISTORY: u16 = 8;
    /// Not served: reserved.
    pub const IMPORTED: u16 = 16;
    pub const CLOSED: u16 = 32;

    /// Whether one of these flags is set.
    pub fn has(&self, flags: u16) -> bool {
        self.flags & flags != 0
    }
}

/// A transfer.
#[derive(Clone, Copy, Debug, Default, PartialEq, Eq)]
pub struct Transfer {
    pub id: u128,
    pub debit_account_id: u128,
    pub credit_account_id: u128,
    pub amount: u128,
    pub pending_id: u128,
    pub user_data_128: u128,
    pub user_data_64: u64,
    pub user_data_32: u32,
    /// Seconds. 0 for as long as need be.
    pub timeout: u32,
    pub ledger: u32,
    pub code: u16,
    pub flags: u16,
    /// Nanoseconds. 0 in an event.
    pub timestamp: u64,
}

impl Transfer {
    pub const LINKED: u16 = 1;
    pub const PENDING: u16 = 2;
    pub const POST_PENDING_TRANSFER: u16 = 4;
    pub const VOID_PENDING_TRANSFER: u16 = 8;
    /// Not served: reserved.
    pub const BALANCING_DEBIT: u16 = 16;
    /// Not served: reserved.
    pub const BALANCING_CREDIT: u16 = 32;
    pub const CLOSING_DEBIT: u16 = 64;
    pub const CLOSING_CREDIT: u16 = 128;
    /// Not served: reserved.
    pub const IMPORTED: u16 = 256;

    /// Whether one of these flags is set.
    pub fn has(&self, flags: u16) -> bool {
        self.flags & flags != 0
    }

    pub fn is_pending(&self) -> bool {
        self.has(Self::PENDING)
    }

    pub fn is_post(&self) -> bool {
        self.has(Self::POST_PENDING_TRANSFER)
    }

    pub fn is_void(&self) -> bool {
        self.has(Self::VOID_PENDING_TRANSFER)
    }

    /// Whether it posts or voids a pending transfer.
    pub fn is_settling(&self) -> bool {
        self.is_post() || self.is_void()
    }

    /// Whether it closes one of its accounts, or both.
    pub fn is_closing(&self) -> bool {
        self.has(Self::CLOSING_DEBIT | Self::CLOSING_CREDIT)
    }

    /// When a pending transfer with this timestamp and a timeout expires, in nanoseconds.
    pub fn expires_at(&self) -> u64 {
        self.timestamp + u64::from(self.timeout) * 1_000_000_000
    }
}

/// What to find of the transfers or balances of one account. A field that is 0 asks nothing, but for the account,
/// the limit and the flags.
#[derive(Clone, Copy, Debug, PartialEq, Eq)]
pub struct AccountFilter {
    pub account_id: u128,
    pub user_data_128: u128,
    pub user_data_64: u64,
    pub user_data_32: u32,
    pub code: u16,
    pub reserved: [u8; 58],
    pub timestamp_min: u64,
    pub timestamp_max: u64,
    pub limit: u32,
    pub flags: u32,
}

impl AccountFilter {
    pub const DEBITS: u32 = 1;
    pub const CREDITS: u32 = 2;
    pub const REVERSED: u32 = 4;

    /// Whether one of these flags is set.
    pub fn has(&self, flags: u32) -> bool {
        self.flags & flags != 0
    }
}

impl Default for AccountFilter {
    fn default() -> Self {
        AccountFilter {
            account_id: 0,
            user_data_128: 0,
            user_data_64: 0,
            user_data_32: 0,
            code: 0,
            reserved: [0; 58],
            timestamp_min: 0,
            timestamp_max: 0,
            limit: 0,
            flags: 0,
        }
    }
}

/// What to find among all accounts or all transfers. A field that is 0 asks nothing, but for the limit.
#[derive(Clone, Copy, Debug, Default, PartialEq, Eq)]
pub struct QueryFilter {
    pub user_data_128: u128,
    pub user_data_64: u64,
    pub user_data_32: u32,
    pub ledger: u32,
    pub code: u16,
    pub reserved: [u8; 6],
    pub timestamp_min: u64,
    pub timestamp_max: u64,
    pub limit: u32,
    pub flags: u32,
}

impl QueryFilter {
    pub const REVERSED: u32 = 1;

    /// Whether one of these flags is set.
    pub fn has(&self, flags: u32) -> bool {
        self.flags & flags != 0
    }
}

/// The sums of an account right after a transfer with this timestamp.
#[derive(Clone, Copy, Debug, PartialEq, Eq)]
pub struct AccountBalance {
    pub debits_pending: u128,
    pub debits_posted: u128,
    pub credits_pending: u128,
    pub credits_posted: u128,
    pub timestamp: u64,
    pub reserved: [u8; 56],
}
