//! The tables: rows of elements.

/// A row of the main table.
pub type Row = [u64; 65];

/// The names of the tables and how many columns each has, in their order.
pub const TABLES: [(&str, usize); 7] =
    [("main", 65), ("range", 2), ("hasher", 15), ("bitwise", 12), ("memory", 14), ("kernel", 5), ("left", 1)];

#[derive(Default)]
pub struct Tables {
    pub main: Vec<Row>,
    pub range: Vec<[u64; 2]>,
    pub hasher: Vec<[u64; 15]>,
    pub bitwise: Vec<[u64; 12]>,
    pub memory: Vec<[u64; 14]>,
    pub kernel: Vec<[u64; 5]>,
    pub left: Vec<[u64; 1]>,
}

impl Tables {
    /// How many rows each table has.
    pub fn counts(&self) -> [usize; 7] {
        let Tables { main, range, hasher, bitwise, memory, kernel, left } = self;
        [main.len(), range.len(), hasher.len(), bitwise.len(), memory.len(), kernel.len(), left.len()]
    }
}
