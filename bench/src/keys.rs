//! Numbers, keys and values, made as `bench/proved/tf_bench/src/keys.rattle` makes them.

/// A generator of numbers: the same from the same seed.
pub struct Generator {
    state: u64,
}

impl Generator {
    pub fn new(seed: u64) -> Self {
        Generator { state: seed }
    }

    pub fn number(&mut self) -> u64 {
        self.state = self.state.wrapping_add(0x9E37_79B9_7F4A_7C15);
        let once = (self.state ^ (self.state >> 30)).wrapping_mul(0xBF58_476D_1CE4_E5B9);
        let twice = (once ^ (once >> 27)).wrapping_mul(0x94D0_49BB_1331_11EB);
        twice ^ (twice >> 31)
    }

    pub fn key(&mut self) -> Key {
        let high = self.number();
        let low = self.number();
        Key {
            value: (u128::from(high) << 64) | u128::from(low),
            timestamp: self.number() >> 1,
        }
    }
}

/// Ordered by value, and then by timestamp.
#[derive(Clone, Copy, PartialEq, Eq, PartialOrd, Ord)]
pub struct Key {
    pub value: u128,
    pub timestamp: u64,
}

/// The key at a place of keys that rise.
pub fn rising_key(place: u64) -> Key {
    Key {
        value: u128::from(place),
        timestamp: place,
    }
}

/// The key of a number. Such keys rise with their numbers.
pub fn spread_key(number: u64) -> Key {
    Key {
        value: u128::from(number) << 64,
        timestamp: number,
    }
}

/// A number that tells keys from one another.
pub fn key_number(key: &Key) -> u64 {
    ((key.value >> 64) as u64).wrapping_mul(3) ^ key.timestamp
}

/// A sum of numbers that also tells their order.
pub fn mixed(sum: u64, number: u64) -> u64 {
    sum.wrapping_mul(31).wrapping_add(number)
}

/// The values of a workload.
pub trait Payload: Copy {
    fn of(number: u64) -> Self;
    fn number(&self) -> u64;
}

impl Payload for () {
    fn of(_number: u64) {}

    fn number(&self) -> u64 {
        0
    }
}

/// A value of `8 * N` bytes.
#[derive(Clone, Copy)]
pub struct Words<const N: usize>([u64; N]);

impl<const N: usize> Payload for Words<N> {
    fn of(number: u64) -> Self {
        Words([number; N])
    }

    fn number(&self) -> u64 {
        self.0[N - 1]
    }
}
