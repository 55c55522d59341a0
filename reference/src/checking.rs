//! Checking (docs/CONSTRAINTS.md): each entry of each row is to be 0, and on each bus each tuple asked as often as given.
mod buses;
mod passes;
mod rows;
mod tallies;
mod values;

pub use buses::Buses;
pub use passes::{Pass, Pieces, Refusal, compared, passed, whole};
pub use tallies::{Apart, Tally, ValueTally};
