//! Files of lines of canonical decimals: the parameters, and numbers to hash.
use crate::field::PRIME;
use crate::permutation::{Params, State};
use crate::sponge::Block;

const CONSTANTS: usize = 168;

const MOST_NUMBERS: usize = 8192;

#[derive(Clone, Copy, Debug, PartialEq, Eq)]
pub enum Cause {
    Ended,
    Number,
    Extra,
    Count,
}

/// A line, counted from 1, and what is wrong with it.
pub type Malformed = (usize, Cause);

/// An element in decimal digits without a leading zero.
pub fn element(digits: &[u8]) -> Option<u64> {
    let is_canonical = match digits {
        [] => false,
        [b'0', ..] => digits.len() == 1,
        _ => digits.iter().all(u8::is_ascii_digit),
    };
    let text = std::str::from_utf8(digits).ok().filter(|_| is_canonical)?;
    text.parse().ok().filter(|number| *number < PRIME)
}

/// The element of the first line, and the bytes behind the line.
fn first_line(bytes: &[u8]) -> Option<(u64, &[u8])> {
    let end = bytes.iter().position(|byte| *byte == b'\n')?;
    Some((element(&bytes[..end])?, &bytes[end + 1..]))
}

/// The constants of the permutation.
pub fn params(bytes: &[u8]) -> Result<Params, Malformed> {
    let mut rest = bytes;
    let mut constants = [0; CONSTANTS];
    for (i, constant) in constants.iter_mut().enumerate() {
        if rest.is_empty() {
            return Err((i + 1, Cause::Ended));
        }
        (*constant, rest) = first_line(rest).ok_or((i + 1, Cause::Number))?;
    }
    if !rest.is_empty() {
        return Err((CONSTANTS + 1, Cause::Extra));
    }
    let twelve = |from: usize| -> State { std::array::from_fn(|j| constants[from + j]) };
    Ok(Params { first: std::array::from_fn(|k| twelve(24 * k)), second: std::array::from_fn(|k| twelve(24 * k + 12)) })
}

/// Numbers, eight to a block.
pub fn numbers(bytes: &[u8]) -> Result<Vec<Block>, Malformed> {
    let mut rest = bytes;
    let mut numbers = Vec::new();
    while !rest.is_empty() {
        let (number, later) = first_line(rest).ok_or((numbers.len() + 1, Cause::Number))?;
        numbers.push(number);
        rest = later;
    }
    let count = numbers.len();
    if !(8..=MOST_NUMBERS).contains(&count) || count % 8 != 0 {
        return Err((count + 1, Cause::Count));
    }
    Ok(numbers.chunks_exact(8).map(|block| std::array::from_fn(|j| block[j])).collect())
}
