//! The limits of batches, timestamps, ids and amounts.

/// The most events in a batch, ids in a look-up, rows in an answer and expiries in a pulse.
pub const BATCH_MAX: usize = 8_190;

/// The greatest timestamp, in nanoseconds.
pub const TIMESTAMP_MAX: u64 = (1 << 63) - 1;

/// The greatest amount and the greatest sum of amounts.
pub const AMOUNT_MAX: u128 = u128::MAX;

/// The number that no account and no transfer may have as its id, besides 0.
pub const ID_MAX: u128 = u128::MAX;
