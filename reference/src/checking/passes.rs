//! Passes over rows of a trace, which test and count them.
//!
//! A row's operation is decoded once, and only the constraints that it can break are tested; where the row is not clean, all values
//! are computed, and the first that is not 0 is the refusal. What a row asks and gives is counted right behind its test.
use super::buses::Buses;
use super::rows::*;
use super::values::*;
use crate::formats::statements::Statement;
use crate::permutation::Params;
use crate::trace::{Row, Tables};
use std::ops::Range;
use std::thread;

/// What refuses a file, as it is told: a row's constraint and its value, or a bus that is apart.
pub type Refusal = String;

fn at_row(table: &str, row: usize, fault: Option<(usize, u64)>) -> Result<(), Refusal> {
    let Some((number, value)) = fault else { return Ok(()) };
    Err(format!("refused {table} row {row} constraint {number} value {value}"))
}

/// Rows of all tables, in the order of the tables, by how many rows stand before them and before the one behind the last.
pub struct Part {
    from: usize,
    to: usize,
}

impl Part {
    /// Those of the next table, which has so many rows.
    fn next(&mut self, rows: usize) -> Range<usize> {
        let part = self.from.min(rows)..self.to.min(rows);
        self.from -= part.start;
        self.to -= part.end;
        part
    }
}

/// The pieces from one on and below another, of so many.
#[derive(Clone, Copy)]
pub struct Pieces {
    pub low: usize,
    pub high: usize,
    pub all: usize,
}

/// One pass over some rows, which tests and counts or does one of the two. Gives the codes of the main rows' operations.
pub struct Pass<'a, const TESTS: bool, const COUNTS: bool> {
    tables: &'a Tables,
    claim: Claim<'a>,
    part: Part,
    pub buses: Buses,
}

impl<const TESTS: bool, const COUNTS: bool> Pass<'_, TESTS, COUNTS> {
    pub fn new<'a>(params: &'a Params, tables: &'a Tables, statement: &'a Statement, part: Part) -> Pass<'a, TESTS, COUNTS> {
        let (kernel_rows, left_rows) = (tables.kernel.len(), tables.left.len());
        let left_key = tables.left.first().map_or(0, |row| row[0]);
        let claim = Claim { params, statement, kernel_rows, left_rows, left_key };
        Pass { tables, claim, part, buses: Buses::default() }
    }

    /// All of the rows, table by table.
    pub fn all(&mut self) -> Result<Vec<u8>, Refusal> {
        let codes = self.main()?;
        self.range()?;
        self.hasher()?;
        self.bitwise()?;
        self.memory()?;
        self.kernel()?;
        self.left();
        Ok(codes)
    }

    fn main(&mut self) -> Result<Vec<u8>, Refusal> {
        let main = &self.tables.main;
        let part = self.part.next(main.len());
        let mut codes = Vec::with_capacity(part.len());
        if COUNTS && part.start == 0 && part.end > 0 {
            self.buses.statement(self.claim.statement);
        }
        let mut own = main.get(part.start).and_then(code_in);
        for (i, x) in main.iter().enumerate().take(part.end).skip(part.start) {
            let next = main.get(i + 1);
            let behind = next.and_then(code_in);
            if TESTS && !self.main_is_clean(i, x, next, own, behind) {
                at_row("main", i, main_fault(&self.claim, i, x, next))?;
            }
            if let (Some(y), Some(code), Some(behind)) = (next, own, behind) {
                if COUNTS {
                    self.buses.main(x, y, code, behind);
                }
            }
            codes.extend(own);
            own = behind;
        }
        Ok(codes)
    }

    fn main_is_clean(&self, i: usize, x: &Row, next: Option<&Row>, own: Option<u8>, behind: Option<u8>) -> bool {
        let Some(code) = own else { return false };
        if i == 0 && !starts(&self.claim, x, code) {
            return false;
        }
        match (next, behind) {
            (Some(y), Some(behind)) => pair_is_clean(x, y, code, behind),
            (Some(_), None) => false,
            (None, _) => stops(&self.claim, x, code),
        }
    }

    fn range(&mut self) -> Result<(), Refusal> {
        let rows = &self.tables.range;
        let part = self.part.next(rows.len());
        for (i, x) in rows.iter().enumerate().take(part.end).skip(part.start) {
            if TESTS && !range_is_clean(i, x, rows.get(i + 1)) {
                at_row("range", i, range_fault(i, x, rows.get(i + 1)))?;
            }
            if COUNTS {
                self.buses.range(x);
            }
        }
        Ok(())
    }

    fn hasher(&mut self) -> Result<(), Refusal> {
        let rows = &self.tables.hasher;
        let part = self.part.next(rows.len());
        for (i, x) in rows.iter().enumerate().take(part.end).skip(part.start) {
            if TESTS && !hasher_is_clean(&self.claim, i, x, rows.get(i + 1)) {
                at_row("hasher", i, hasher_fault(&self.claim, i, x, rows.get(i + 1)))?;
            }
            if COUNTS {
                self.buses.hasher(i, x);
            }
        }
        Ok(())
    }

    fn bitwise(&mut self) -> Result<(), Refusal> {
        let rows = &self.tables.bitwise;
        let part = self.part.next(rows.len());
        for (i, x) in rows.iter().enumerate().take(part.end).skip(part.start) {
            if TESTS && !bitwise_is_clean(i, x, rows.get(i + 1)) {
                at_row("bitwise", i, bitwise_fault(i, x, rows.get(i + 1)))?;
            }
            if COUNTS {
                self.buses.bitwise(i, x);
            }
        }
        Ok(())
    }

    fn memory(&mut self) -> Result<(), Refusal> {
        let rows = &self.tables.memory;
        let part = self.part.next(rows.len());
        for (i, x) in rows.iter().enumerate().take(part.end).skip(part.start) {
            if TESTS && !memory_is_clean(i, x, rows.get(i + 1)) {
                at_row("memory", i, memory_fault(i, x, rows.get(i + 1)))?;
            }
            if COUNTS {
                self.buses.memory(x);
            }
        }
        Ok(())
    }

    fn kernel(&mut self) -> Result<(), Refusal> {
        let rows = &self.tables.kernel;
        let part = self.part.next(rows.len());
        for (i, x) in rows.iter().enumerate().take(part.end).skip(part.start) {
            if TESTS {
                at_row("kernel", i, kernel_fault(&self.claim, i, x))?;
            }
            if COUNTS {
                self.buses.kernel(x);
            }
        }
        Ok(())
    }

    fn left(&mut self) {
        let rows = &self.tables.left;
        let part = self.part.next(rows.len());
        for (i, [key]) in rows.iter().enumerate().take(part.end).skip(part.start) {
            let below = rows.get(i + 1).map_or(0, |row| row[0]);
            if COUNTS {
                let output = self.claim.statement.outputs.get(16 + i).copied().unwrap_or(0);
                self.buses.left(*key, output, below);
            }
        }
    }
}

/// Why the buses refuse a file: the first that is apart.
pub fn compared(buses: &Buses) -> Result<(), Refusal> {
    let Some((bus, (tuple, asked, given))) = buses.apart() else { return Ok(()) };
    let tuple: String = tuple.iter().map(|element| format!(" {element}")).collect();
    Err(format!("refused bus {bus} tuple{tuple} asked {asked} given {given}"))
}

fn count_of(tables: &Tables) -> usize {
    tables.counts().iter().sum()
}

/// All rows.
pub fn whole(tables: &Tables) -> Part {
    Part { from: 0, to: count_of(tables) }
}

/// The codes of the main rows of some pieces and what they count: each half in a thread of its own, down to one piece.
pub fn passed(params: &Params, tables: &Tables, statement: &Statement, pieces: Pieces) -> Result<(Vec<u8>, Buses), Refusal> {
    let Pieces { low, high, all } = pieces;
    if low + 1 == high {
        let count = count_of(tables);
        let part = Part { from: low * count / all, to: high * count / all };
        let mut pass = Pass::<true, true>::new(params, tables, statement, part);
        return Ok((pass.all()?, pass.buses));
    }
    let middle = low + (high - low) / 2;
    let half = |low, high| passed(params, tables, statement, Pieces { low, high, all });
    let (first, second) = thread::scope(|scope| {
        let first = scope.spawn(|| half(low, middle));
        let second = half(middle, high);
        (first.join().expect("a half that ends"), second)
    });
    let ((mut codes, mut buses), (more_codes, more)) = (first?, second?);
    codes.extend(more_codes);
    buses.absorb(more);
    Ok((codes, buses))
}
