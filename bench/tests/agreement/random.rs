//! Random scripts, in which every kind of event has every result now and then.

use plain::keys::Generator;
use std::fmt::Write;

/// How many commands a script has.
const COMMANDS: u64 = 24;

/// The fields of an event, by name.
type Event = Vec<(&'static str, String)>;

/// The script of a seed.
pub fn script(seed: u64) -> String {
    let mut writer = Writer {
        numbers: Generator::new(seed),
        text: String::new(),
        sent: Vec::new(),
        next_id: 1,
        moment: 0,
    };
    writer.batch("accounts", 8, Writer::plain_account);
    for _ in 0..COMMANDS {
        writer.command();
    }
    writer.text
}

/// A script up to some command.
struct Writer {
    numbers: Generator,
    text: String,
    /// The transfers of earlier batches.
    sent: Vec<Event>,
    /// The next id that no transfer had yet.
    next_id: u64,
    moment: u64,
}

impl Writer {
    /// A number below a bound.
    fn below(&mut self, bound: u64) -> u64 {
        self.numbers.number() % bound
    }

    /// Whether something happens that happens once in so many times.
    fn once_in(&mut self, times: u64) -> bool {
        self.below(times) == 0
    }

    /// One of some words.
    fn one_of(&mut self, words: &[&str]) -> String {
        words[self.below(words.len() as u64) as usize].to_string()
    }

    fn command(&mut self) {
        match self.below(16) {
            0 => {
                let len = self.below(9);
                self.batch("accounts", len, Self::account);
            }
            1..=7 => {
                let len = self.below(14);
                self.batch("transfers", len, Self::transfer);
            }
            8 | 9 => {
                let (now, most) = (self.now(), self.one_of(&["0", "1", "2", "max"]));
                self.line(&format!("pulse {now} {most}"));
            }
            10 => self.look_up(),
            11 | 12 => self.query("get_account_transfers", Self::account_filter),
            13 => self.query("get_account_balances", Self::account_filter),
            14 => self.query("query_accounts", Self::query_filter),
            _ => self.query("query_transfers", Self::query_filter),
        }
    }

    fn line(&mut self, line: &str) {
        self.text.push_str(line);
        self.text.push('\n');
    }

    /// A batch of so many events.
    fn batch(&mut self, verb: &str, len: u64, event: fn(&mut Self) -> Event) {
        let now = self.now();
        self.line(&format!("{verb} {now}"));
        for _ in 0..len {
            let event = event(self);
            let words = words(&event);
            self.line(&format!("+{words}"));
        }
        self.line("end");
    }

    /// A moment: mostly the clock's own, else later, and now and then near the end of all time.
    fn now(&mut self) -> u64 {
        match self.below(40) {
            0..=27 => 0,
            28..=38 => {
                self.moment += self.numbers.number() % 1_000_000_000;
                self.moment
            }
            _ => 9_223_372_034_854_775_790 + self.below(40) * 50_000_000,
        }
    }

    /// An account without faults.
    fn plain_account(&mut self) -> Event {
        let id = self.next_id;
        self.next_id += 1;
        let mut event = vec![("id", id.to_string())];
        event.push(("ledger", self.one_of(&["1", "1", "1", "1", "1", "2"])));
        event.push(("code", "1".to_string()));
        let limits = ["0", "0", "8", "8", "2", "4", "10", "32"];
        event.push(("flags", self.one_of(&limits)));
        event
    }

    fn account(&mut self) -> Event {
        let mut event = vec![("id", self.account_id())];
        event.push(("ledger", self.one_of(&["0", "1", "1", "1", "2"])));
        event.push(("code", self.one_of(&["0", "1", "1", "1", "2"])));
        let flags = [
            "0", "0", "1", "1", "8", "9", "2", "4", "6", "16", "32", "64",
        ];
        event.push(("flags", self.one_of(&flags)));
        self.user_data(&mut event);
        for sum in [
            "debits_pending",
            "debits_posted",
            "credits_pending",
            "credits_posted",
        ] {
            self.seldom(&mut event, sum);
        }
        self.seldom(&mut event, "reserved");
        self.seldom(&mut event, "timestamp");
        event
    }

    /// Sets a field now and then that no event should have.
    fn seldom(&mut self, event: &mut Event, field: &'static str) {
        if self.once_in(25) {
            event.push((field, "1".to_string()));
        }
    }

    /// The client's own fields, each now and then.
    fn user_data(&mut self, event: &mut Event) {
        for field in ["user_data_128", "user_data_64", "user_data_32"] {
            if self.once_in(4) {
                event.push((field, self.one_of(&["0", "1", "2"])));
            }
        }
    }

    /// The id of an account, mostly of one that is stored.
    fn account_id(&mut self) -> String {
        match self.below(40) {
            0 => "0".to_string(),
            1 => "max".to_string(),
            2 => "99".to_string(),
            _ => (1 + self.below(8)).to_string(),
        }
    }

    fn transfer(&mut self) -> Event {
        let event = match self.below(12) {
            0..=2 if !self.sent.is_empty() => self.sent_again(),
            3..=5 => self.settling(),
            _ => self.moving(),
        };
        self.sent.push(event.clone());
        event
    }

    /// The id of a transfer, mostly a new one.
    fn transfer_id(&mut self) -> String {
        match self.below(40) {
            0 => "0".to_string(),
            1 => "max".to_string(),
            2..=5 => (1 + self.below(self.next_id)).to_string(),
            _ => {
                self.next_id += 1;
                (self.next_id - 1).to_string()
            }
        }
    }

    fn amount(&mut self) -> String {
        let greatest = u128::MAX.to_string();
        let half = (u128::MAX / 2).to_string();
        let amounts = ["0", "0", "1", "2", "3", "5", "10", "10", &half, &greatest];
        self.one_of(&amounts)
    }

    /// A transfer that moves an amount or sets one aside.
    fn moving(&mut self) -> Event {
        let mut event = vec![("id", self.transfer_id())];
        event.push(("debit_account_id", self.account_id()));
        event.push(("credit_account_id", self.account_id()));
        event.push(("amount", self.amount()));
        let ledgers = ["0", "1", "1", "1", "1", "1", "1", "1", "2"];
        event.push(("ledger", self.one_of(&ledgers)));
        event.push(("code", self.one_of(&["0", "1", "1", "1", "1", "1", "2"])));
        let flags = [
            "0", "0", "0", "1", "1", "1", "2", "2", "2", "3", "3", "66", "130", "194", "16", "32",
            "64", "128", "256", "6", "12",
        ];
        event.push(("flags", self.one_of(&flags)));
        if self.once_in(3) {
            event.push(("timeout", self.one_of(&["1", "1", "2"])));
        }
        self.user_data(&mut event);
        self.seldom(&mut event, "pending_id");
        self.seldom(&mut event, "timestamp");
        event
    }

    /// A post or void, mostly of a transfer that was sent.
    fn settling(&mut self) -> Event {
        let mut event = vec![("id", self.transfer_id())];
        event.push(("pending_id", self.pending_id()));
        let flags = ["4", "4", "4", "5", "5", "8", "8", "9", "9", "68", "136"];
        event.push(("flags", self.one_of(&flags)));
        if self.once_in(2) {
            event.push(("amount", self.amount()));
        }
        for (field, values) in [
            ("ledger", ["0", "1", "2"]),
            ("code", ["0", "1", "2"]),
            ("timeout", ["0", "0", "1"]),
        ] {
            if self.once_in(5) {
                event.push((field, self.one_of(&values)));
            }
        }
        for field in ["debit_account_id", "credit_account_id"] {
            if self.once_in(8) {
                event.push((field, self.account_id()));
            }
        }
        self.user_data(&mut event);
        event
    }

    /// The id of a transfer that was sent, mostly of a pending one.
    fn pending_id(&mut self) -> String {
        let is_pending = |event: &&Event| {
            event.iter().any(|(field, value)| {
                *field == "flags" && ["2", "3", "66", "130", "194"].contains(&value.as_str())
            })
        };
        let pending: Vec<&Event> = self.sent.iter().filter(is_pending).collect();
        let ids: Vec<String> = pending.iter().map(|event| event[0].1.clone()).collect();
        match self.below(30) {
            0 => "0".to_string(),
            1 => "max".to_string(),
            2 => "98".to_string(),
            3 | 4 => (1 + self.below(self.next_id)).to_string(),
            _ if ids.is_empty() => "97".to_string(),
            _ => ids[self.below(ids.len() as u64) as usize].clone(),
        }
    }

    /// A transfer that was sent, as it was or with one field changed.
    fn sent_again(&mut self) -> Event {
        let place = self.below(self.sent.len() as u64) as usize;
        let mut event = self.sent[place].clone();
        let changed = self.below(2 * event.len() as u64) as usize;
        if let Some((_, value)) = event.get_mut(changed).filter(|_| changed > 0) {
            *value = self.one_of(&["0", "1", "2", "3", "5"]);
        }
        event
    }

    fn look_up(&mut self) {
        let kind = self.one_of(&["lookup_accounts", "lookup_transfers"]);
        let mut line = kind;
        for _ in 0..self.below(6) {
            let id = self.below(self.next_id);
            write!(line, " {id}").expect("a string takes all");
        }
        self.line(&line);
    }

    fn query(&mut self, verb: &str, filter: fn(&mut Self) -> Event) {
        let filter = filter(self);
        let words = words(&filter);
        self.line(&format!("{verb}{words}"));
    }

    fn account_filter(&mut self) -> Event {
        let mut filter = vec![("account_id", self.account_id())];
        let flags = ["1", "2", "3", "3", "3", "5", "6", "7", "7", "0", "8"];
        filter.push(("flags", self.one_of(&flags)));
        self.common_filter(&mut filter);
        filter
    }

    fn query_filter(&mut self) -> Event {
        let mut filter = vec![("flags", self.one_of(&["0", "0", "0", "1", "1", "1", "2"]))];
        if self.once_in(2) {
            filter.push(("ledger", self.one_of(&["0", "1", "2"])));
        }
        self.common_filter(&mut filter);
        filter
    }

    /// The fields of both kinds of filters.
    fn common_filter(&mut self, filter: &mut Event) {
        self.user_data(filter);
        if self.once_in(3) {
            filter.push(("code", self.one_of(&["1", "2"])));
        }
        filter.push((
            "limit",
            self.one_of(&["0", "1", "2", "5", "100", "max", "max"]),
        ));
        for bound in ["timestamp_min", "timestamp_max"] {
            if self.once_in(4) {
                let near = self.moment + self.below(60);
                let value = self.one_of(&["1", "20", "40", "80", &near.to_string(), "max"]);
                filter.push((bound, value));
            }
        }
    }
}

/// The words of a record.
fn words(event: &Event) -> String {
    event.iter().fold(String::new(), |words, (field, value)| {
        format!("{words} {field}={value}")
    })
}
