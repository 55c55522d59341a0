//! The seven tables of a run (docs/CONSTRAINTS.md), and how they are filled.
pub mod columns;
mod filling;
mod small;
mod tables;

pub use filling::fill;
pub use tables::{Row, TABLES, Tables};
