//! The machine (docs/MACHINE.md): a run of a tree, cycle by cycle, which keeps a log.
mod blocks;
mod log;
mod processor;

pub use blocks::{Block, Blocks, Parts, permuted};
pub use log::{Access, Event, Log};
pub use processor::{MOST_CYCLES, Machine, StandIn, Stop, TrapCause};
