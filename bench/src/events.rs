//! Accounts and transfers, to be made alike on both sides of the benchmark.

use crate::keys::Generator;
use crate::ledger::{Account, Transfer};

/// How many accounts there are. Their ids are 1 and up.
pub const ACCOUNTS: u64 = 10_000;

/// How many of the accounts keep history. They stand first.
pub const WITH_HISTORY: u64 = ACCOUNTS / 2;

/// How many ledgers the accounts are of, in turn. They are 1 and up, as are the values of all searched fields.
pub const LEDGERS: u64 = 4;

pub const CODES: u64 = 20;
pub const USER_DATA_128: u64 = 100_000;
pub const USER_DATA_64: u64 = 1_000;
pub const USER_DATA_32: u64 = 100;

/// Which ids transfers get.
#[derive(Clone, Copy)]
pub enum Ids {
    Rising,
    Random,
}

/// All accounts.
pub fn accounts() -> Vec<Account> {
    (0..ACCOUNTS).map(account).collect()
}

fn account(place: u64) -> Account {
    Account {
        id: account_id(place),
        ledger: ledger_of(place),
        code: 1,
        flags: if place < WITH_HISTORY {
            Account::HISTORY
        } else {
            0
        },
        ..Account::default()
    }
}

/// The id of the account at a place.
pub fn account_id(place: u64) -> u128 {
    u128::from(1 + place)
}

/// The ledger of the account at a place.
fn ledger_of(place: u64) -> u32 {
    1 + (place % LEDGERS) as u32
}

/// Makes transfers between any two accounts of one ledger.
pub struct Transfers {
    numbers: Generator,
    ids: Ids,
    made: u64,
}

impl Transfers {
    pub fn new(seed: u64, ids: Ids) -> Self {
        Transfers::after(seed, ids, 0)
    }

    /// Where ids rise, they follow this one.
    pub fn after(seed: u64, ids: Ids, id: u64) -> Self {
        Transfers {
            numbers: Generator::new(seed),
            ids,
            made: id,
        }
    }

    /// So many transfers with the next ids.
    pub fn batch(&mut self, len: u64) -> Vec<Transfer> {
        (0..len).map(|_| self.transfer()).collect()
    }

    /// The transfer with the next id.
    pub fn transfer(&mut self) -> Transfer {
        self.made += 1;
        let id = self.id();
        let debit = self.below(ACCOUNTS);
        let step = LEDGERS * (1 + self.below(ACCOUNTS / LEDGERS - 1));
        let credit = (debit + step) % ACCOUNTS;
        Transfer {
            id,
            debit_account_id: account_id(debit),
            credit_account_id: account_id(credit),
            amount: u128::from(1 + self.below(1_000)),
            user_data_128: u128::from(1 + self.below(USER_DATA_128)),
            user_data_64: 1 + self.below(USER_DATA_64),
            user_data_32: 1 + self.below(USER_DATA_32) as u32,
            ledger: ledger_of(debit),
            code: 1 + self.below(CODES) as u16,
            ..Transfer::default()
        }
    }

    /// The id of the transfer that is made.
    fn id(&mut self) -> u128 {
        match self.ids {
            Ids::Rising => u128::from(self.made),
            Ids::Random => {
                let high = self.numbers.number();
                (u128::from(high) << 64) | u128::from(self.numbers.number())
            }
        }
    }

    /// A number below a bound.
    pub fn below(&mut self, bound: u64) -> u64 {
        self.numbers.number() % bound
    }
}
