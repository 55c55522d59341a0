//! The small tables of a run.
use crate::field::Word;
use crate::machine::{Access, Event};
use crate::operations::{U32AND, U32XOR};

/// The range table: the values that are asked, and steps between them as great as may be.
pub fn range_rows(asked: &[u64]) -> Vec<[u64; 2]> {
    let mut rows = Vec::new();
    let (mut value, mut goal) = (0, 0);
    loop {
        rows.push([asked[value], value as u64]);
        if value == 65535 {
            return rows;
        }
        if goal == value {
            goal = (value + 1..65535).find(|later| asked[*later] > 0).unwrap_or(65535);
        }
        value += [2187, 729, 243, 81, 27, 9, 3, 1].into_iter().find(|step| *step <= goal - value).unwrap_or(1);
    }
}

/// The bitwise table: eight rows for each AND and XOR: the operands without their lowest 28 bits, then without 24, and so on.
pub fn bitwise_rows(events: &[Event]) -> Vec<[u64; 12]> {
    let mut rows = Vec::new();
    for event in events.iter().filter(|event| event.op == U32AND || event.op == U32XOR) {
        for bits in (0..8).rev().map(|k| 4 * k) {
            let (a, b) = (event.cells[0] >> bits, event.cells[1] >> bits);
            let bit = |number: u64, j: u32| number >> j & 1;
            let result = if event.op == U32XOR { a ^ b } else { a & b };
            let [a0, a1, a2, a3] = [0, 1, 2, 3].map(|j| bit(a, j));
            let [b0, b1, b2, b3] = [0, 1, 2, 3].map(|j| bit(b, j));
            rows.push([u64::from(event.op == U32XOR), a, b, a0, a1, a2, a3, b0, b1, b2, b3, result]);
        }
    }
    rows
}

/// The memory table: the accesses by context, address and clock. Their limbs are asked for.
pub fn memory_rows(accesses: &mut [Access], asked: &mut [u64]) -> Vec<[u64; 14]> {
    accesses.sort_unstable_by_key(|it| (it.context, it.address, it.clock));
    let mut rows = Vec::with_capacity(accesses.len());
    let mut before: Option<&Access> = None;
    for it in accesses.iter() {
        let (n0, n1, step) = match before {
            None => (1, 0, 0),
            Some(before) if before.context != it.context => (1, 0, it.context - before.context - 1),
            Some(before) if before.address != it.address => (0, 1, it.address - before.address - 1),
            Some(before) => (0, 0, it.clock - before.clock - 1),
        };
        let limbs = [step & 0xffff, step >> 16, it.address & 0xffff, it.address >> 16].map(u64::from);
        for limb in limbs {
            asked[limb as usize] += 1;
        }
        let [v0, v1, v2, v3] = it.word;
        let [d0, d1, a0, a1] = limbs;
        let (kind, context, address, clock) = (it.kind.into(), it.context.into(), it.address.into(), it.clock.into());
        rows.push([kind, context, address, clock, v0, v1, v2, v3, n0, n1, d0, d1, a0, a1]);
        before = Some(it);
    }
    rows
}

/// The kernel table: how often each digest is called.
pub fn kernel_rows(kernel: &[Word], calls: &[Word]) -> Vec<[u64; 5]> {
    let count = |word: &Word| calls.iter().filter(|call| *call == word).count() as u64;
    kernel.iter().map(|word| [word[0], word[1], word[2], word[3], count(word)]).collect()
}
