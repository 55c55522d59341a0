//! Batches (docs/MACHINE.md): eight elements that hold operations in groups, and the immediates of PUSH.
use crate::operations::PUSH;
use crate::sponge::Block;

pub type Batch = Block;

/// An operation, with its immediate where it is PUSH and else 0.
#[derive(Clone, Copy, Debug, PartialEq)]
pub struct Item {
    pub code: u8,
    pub immediate: u64,
}

const POSITIONS: usize = 8;

/// How many operations a group has at most.
const MOST_IN_GROUP: usize = 9;

/// How many positions of a batch are in use.
pub fn in_use(batch: &Batch) -> usize {
    match batch.iter().rposition(|position| *position != 0).unwrap_or(0) {
        0 => 1,
        1 => 2,
        2 | 3 => 4,
        _ => 8,
    }
}

/// The batches of a list of operations.
pub fn pack(items: &[Item]) -> Vec<Batch> {
    let mut batches = Vec::new();
    let mut rest = items;
    while !rest.is_empty() {
        let (batch, count) = first_batch(rest);
        batches.push(batch);
        rest = &rest[count..];
    }
    batches
}

// The batch that a list begins with, and how many operations are in it.
fn first_batch(items: &[Item]) -> (Batch, usize) {
    let mut batch = [0; POSITIONS];
    let (mut group, mut next, mut room, mut digit) = (0, 1, MOST_IN_GROUP, 1u64);
    for (count, item) in items.iter().enumerate() {
        let immediates = usize::from(item.code == PUSH);
        // a PUSH is not the ninth of a group, since a NOOP may follow it
        if room <= immediates || next + immediates > POSITIONS {
            if next + immediates >= POSITIONS {
                return (batch, count);
            }
            (group, room, digit) = (next, MOST_IN_GROUP, 1);
            next += 1;
        }
        batch[group] += u64::from(item.code) * digit;
        digit = digit.wrapping_mul(128);
        room -= 1;
        if immediates == 1 {
            batch[next] = item.immediate;
            next += 1;
        }
    }
    (batch, items.len())
}
