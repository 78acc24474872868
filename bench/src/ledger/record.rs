//! What accounts and transfers have in common as records.

use super::fields::Fields;
use super::records::{Account, Transfer};

pub trait Record: Copy {
    fn id(&self) -> u128;
    fn timestamp(&self) -> u64;
    fn fields(&self) -> Fields;
}

impl Record for Account {
    fn id(&self) -> u128 {
        self.id
    }

    fn timestamp(&self) -> u64 {
        self.timestamp
    }

    fn fields(&self) -> Fields {
        Fields {
            user_data_128: self.user_data_128,
            user_data_64: self.user_data_64,
            user_data_32: self.user_data_32,
            ledger: self.ledger,
            code: self.code,
        }
    }
}

impl Record for Transfer {
    fn id(&self) -> u128 {
        self.id
    }

    fn timestamp(&self) -> u64 {
        self.timestamp
    }

    fn fields(&self) -> Fields {
        Fields {
            user_data_128: self.user_data_128,
            user_data_64: self.user_data_64,
            user_data_32: self.user_data_32,
            ledger: self.ledger,
            code: self.code,
        }
    }
}
