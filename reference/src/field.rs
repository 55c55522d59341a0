//! The field (docs/HASH.md): elements are the numbers below p, and all arithmetic is modulo p.

/// p = 2^64 - 2^32 + 1.
pub const PRIME: u64 = 18446744069414584321;

/// Four elements.
pub type Word = [u64; 4];

pub fn add(a: u64, b: u64) -> u64 {
    let room = PRIME - b;
    if a < room { a + b } else { a - room }
}

pub fn difference(a: u64, b: u64) -> u64 {
    if b <= a { a - b } else { PRIME - (b - a) }
}

pub fn negative(a: u64) -> u64 {
    difference(0, a)
}

pub fn mul(a: u64, b: u64) -> u64 {
    reduced(a as u128 * b as u128)
}

/// A number below 2^128 modulo p: 2^64 is 2^32 - 1 there, and 2^96 is -1.
pub fn reduced(number: u128) -> u64 {
    let low = number as u64;
    let high = (number >> 64) as u64;
    let high_low = high & 0xffff_ffff;
    let high_high = high >> 32;
    let first = if high_high <= low { low - high_high } else { PRIME - (high_high - low) };
    reduced_short(first, high_low)
}

/// `low` and 2^64 times `high`, modulo p, where `high` is below 2^32.
pub fn reduced_short(low: u64, high: u64) -> u64 {
    let second = high * 0xffff_ffff;
    let room = PRIME - second;
    if low < room { low + second } else { low - room }
}

/// The inverse, and 0 of 0.
pub fn inverse(a: u64) -> u64 {
    let (mut result, mut square, mut exponent) = (1, a, PRIME - 2);
    while exponent > 0 {
        if exponent & 1 == 1 {
            result = mul(result, square);
        }
        square = mul(square, square);
        exponent >>= 1;
    }
    result
}
