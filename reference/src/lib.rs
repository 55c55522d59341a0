//! The commands of `miden` in plain Rust: a second implementation, written from docs/ as the definition, for tests and benches to
//! compare the proved program with. Each module is one of the pages' ideas: docs/HASH.md is `field`, `permutation` and `sponge`,
//! docs/ASSEMBLY.md `assembly`, docs/MACHINE.md `operations`, `batches`, `trees` and `machine`, docs/CONSTRAINTS.md `trace`, `checking`
//! and `evidence`, and docs/FORMATS.md `formats` and `commands`.

pub mod assembly;
pub mod batches;
pub mod checking;
pub mod commands;
pub mod evidence;
pub mod field;
pub mod formats;
pub mod machine;
pub mod mixer;
pub mod operations;
pub mod permutation;
pub mod sponge;
pub mod trace;
pub mod trees;
pub mod workload;
