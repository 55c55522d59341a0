//! Assembling (docs/ASSEMBLY.md): a source is read in three passes, and gives a tree, or the first cause for which it is refused.
mod expansion;
mod instructions;
mod library;
mod linking;
mod names;
mod numbers;
mod parsing;
mod refusal;
mod sizes;
mod syntax;
mod tokens;
mod trees;

pub use linking::{Export, Kernel, assemble, assemble_kernel};
pub use refusal::{At, Cause, Refused};
