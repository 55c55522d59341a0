//! What is kept of a run: the state before each cycle, and what it asks of the small tables.
use crate::field::Word;

/// A cycle: its operation, the state before it, and the block that it starts, ends or repeats.
#[derive(Clone, Copy)]
pub struct Event {
    pub op: u8,
    pub in_syscall: bool,
    pub nesting: u16,
    pub block: u32,
    /// The batch that begins, how often a loop's body is repeated, or 1 at the END of a loop that was entered.
    pub number: u32,
    pub depth: u32,
    pub context: u32,
    /// The place of the callee that runs, and one; 0 where none does.
    pub function: u32,
    pub fmp: u64,
    pub cells: [u64; 16],
}

/// An access of memory, with the word as it stands behind it.
#[derive(Clone, Copy)]
pub struct Access {
    pub kind: u8,
    pub context: u32,
    pub address: u32,
    pub clock: u32,
    pub word: Word,
}

#[derive(Default)]
pub struct Log {
    pub events: Vec<Event>,
    pub accesses: Vec<Access>,
    /// The hasher's rows of each HPERM, eight for each.
    pub permutations: Vec<[u64; 15]>,
}
