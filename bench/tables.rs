//! A table in blocks of 256 rows in plain Rust, for `tables.sh` to compare with: in a block a column's cells stand side by side.
use std::time::Instant;

const ROWS: u32 = 1 << 19;
const WIDTH: usize = 65;
const BLOCK_ROWS: usize = 256;
const COLUMN_CELLS: usize = 264;

struct Table {
    rows: usize,
    blocks: Vec<[[u64; COLUMN_CELLS]; WIDTH]>,
}

impl Table {
    fn push_row(&mut self, row: &[u64; WIDTH]) {
        if self.rows % BLOCK_ROWS == 0 {
            self.blocks.push([[0; COLUMN_CELLS]; WIDTH]);
        }
        let block = &mut self.blocks[self.rows / BLOCK_ROWS];
        for (column, cell) in block.iter_mut().zip(row) {
            column[self.rows % BLOCK_ROWS] = *cell;
        }
        self.rows += 1;
    }

    fn cell(&self, row: usize, column: usize) -> u64 {
        self.blocks[row / BLOCK_ROWS][column][row % BLOCK_ROWS]
    }

    fn column(&self, block: usize, column: usize) -> &[u64] {
        let count = (self.rows - block * BLOCK_ROWS).min(BLOCK_ROWS);
        &self.blocks[block][column][..count]
    }
}

fn filled() -> Table {
    let mut table = Table { rows: 0, blocks: Vec::new() };
    for i in 0..ROWS {
        let mut row = [0; WIDTH];
        for (column, cell) in row.iter_mut().enumerate() {
            *cell = u64::from(i.wrapping_mul(column as u32 + 1));
        }
        table.push_row(&row);
    }
    table
}

fn sum_of_rows(table: &Table) -> u64 {
    let mut sum = 0u64;
    for row in 0..table.rows {
        for column in 0..WIDTH {
            sum = sum.wrapping_add(table.cell(row, column));
        }
    }
    sum
}

fn sum_of_column(table: &Table, column: usize) -> u64 {
    let mut sum = 0u64;
    for block in 0..table.blocks.len() {
        for cell in table.column(block, column) {
            sum = sum.wrapping_add(*cell);
        }
    }
    sum
}

fn main() {
    let start = Instant::now();
    let table = filled();
    println!("push {} {}", start.elapsed().as_micros(), table.rows);
    let start = Instant::now();
    let sum = sum_of_rows(&table);
    println!("rows {} {sum}", start.elapsed().as_micros());
    let start = Instant::now();
    let sum = sum_of_column(&table, 40);
    println!("column {} {sum}", start.elapsed().as_micros());
}
