//! The expiry of pending transfers.

use super::limits::{BATCH_MAX, TIMESTAMP_MAX};
use super::reply::Refusal;
use super::transfers::Status;
use super::Ledger;

impl Ledger {
    /// Lets the pending transfers expire whose time is over at the later of the clock and `now`, those first whose time
    /// was over first, and of equal ones those first that were stored first. At most `most` and [`BATCH_MAX`]. The
    /// answer is how many expired, by which the clock moves on. Times are nanoseconds.
    pub fn pulse(&mut self, now: u64, most: u32) -> Result<u32, Refusal> {
        let moment = now.max(self.clock);
        let most = BATCH_MAX.min(most as usize);
        let count = self.expiries.due_count(moment, most);
        if moment > TIMESTAMP_MAX - count as u64 {
            return Err(Refusal::ClockExhausted);
        }
        for _ in 0..count {
            if let Some(place) = self.expiries.pop_first() {
                self.settle(place, Status::Expired);
            }
        }
        self.clock = moment + count as u64;
        Ok(count as u32)
    }
}
