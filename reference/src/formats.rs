//! The files (docs/FORMATS.md): what their bytes say, the first cause for which they are refused, and the one spelling that is written.
pub mod decimals;
pub mod inputs;
mod json;
pub mod lists;
pub mod statements;
pub mod table_files;
mod values;

pub use values::TextCause;
