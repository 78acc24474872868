//! Numbers and flags as scripts spell them, and as bytes.

/// A number of some width.
pub trait Number: Sized {
    const GREATEST: Self;
    const SIZE: usize;

    fn from_u128(number: u128) -> Option<Self>;
}

macro_rules! numbers {
    ($($number:ident)*) => {
        $(impl Number for $number {
            const GREATEST: Self = $number::MAX;
            const SIZE: usize = size_of::<$number>();

            fn from_u128(number: u128) -> Option<Self> {
                number.try_into().ok()
            }
        })*
    };
}

numbers!(u16 u32 u64 u128);

/// A number in decimal digits, or the greatest one as `max`.
pub fn number<N: Number>(text: &str) -> Option<N> {
    if text == "max" {
        return Some(N::GREATEST);
    }
    if !text.bytes().all(|byte| byte.is_ascii_digit()) {
        return None;
    }
    N::from_u128(text.parse().ok()?)
}

/// Flags as a number or as names joined by a bar. The first of the names is that of the lowest bit.
pub fn flags<N: Number>(text: &str, names: &[&str]) -> Option<N> {
    if let Some(bits) = number(text) {
        return Some(bits);
    }
    let bits = text.split('|').try_fold(0, |bits, word| {
        let place = names.iter().position(|name| *name == word)?;
        Some(bits | 1 << place)
    });
    N::from_u128(bits?)
}

/// Bytes that are read from the first on.
pub struct Bytes {
    bytes: Vec<u8>,
    read: usize,
}

impl Bytes {
    /// The bytes that so many pairs of hexadecimal digits spell.
    pub fn from_hex(text: &str, size: usize) -> Option<Self> {
        if text.len() != 2 * size || !text.bytes().all(|byte| byte.is_ascii_hexdigit()) {
            return None;
        }
        let places = (0..text.len()).step_by(2);
        let bytes = places.map(|place| u8::from_str_radix(&text[place..place + 2], 16).ok());
        Some(Bytes {
            bytes: bytes.collect::<Option<_>>()?,
            read: 0,
        })
    }

    /// The next number, its lowest byte first.
    pub fn number<N: Number>(&mut self) -> N {
        let bytes = &self.bytes[self.read..self.read + N::SIZE];
        self.read += N::SIZE;
        let number = bytes
            .iter()
            .rev()
            .fold(0, |number, byte| number << 8 | u128::from(*byte));
        N::from_u128(number).expect("so many bytes are a number of that size")
    }

    /// The next bytes.
    pub fn array<const N: usize>(&mut self) -> [u8; N] {
        let bytes = &self.bytes[self.read..self.read + N];
        self.read += N;
        bytes.try_into().expect("so many bytes were taken")
    }
}
