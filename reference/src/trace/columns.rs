//! Columns of the main table by their numbers. A letter in front of numbered columns names the first of them.

pub const CLOCK: usize = 0;
pub const FMP: usize = 1;
pub const CTX: usize = 2;
pub const SYS: usize = 3;
pub const F: usize = 4;
pub const ADDR: usize = 8;
pub const B: usize = 9;
pub const H: usize = 16;
pub const SP: usize = 24;
pub const GC: usize = 25;
pub const OX: usize = 26;
pub const C: usize = 27;
pub const S: usize = 30;
pub const DEPTH: usize = 46;
pub const KEY: usize = 47;
pub const INV: usize = 48;
pub const HA: usize = 49;
pub const LV: usize = 50;
pub const W: usize = 51;
pub const T: usize = 55;
