//! The hash of numbers that no adversary chooses.

const START: u64 = 0x9E37_79B9_7F4A_7C15;
const FACTOR: u64 = 0xBF58_476D_1CE4_E5B9;

/// Each half of the number is multiplied, and the two halves of the product are folded into one.
pub fn hash(number: u128) -> u32 {
    let low = folded(number as u64 ^ START);
    let both = folded(low ^ (number >> 64) as u64);
    (both >> 32) as u32
}

fn folded(word: u64) -> u64 {
    let product = u128::from(word) * u128::from(FACTOR);
    product as u64 ^ (product >> 64) as u64
}
