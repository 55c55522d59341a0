//! Evidence: what an accepted trace shows, by itself or to one who has the source.
mod merging;
mod placed;
mod sourced;
mod text;
mod walking;

pub use placed::Pair;
pub use sourced::{Sourced, sourced};
pub use text::{sourced_text, text};
pub use walking::{Evidence, evidence};
