//! Table files: the seven tables of a trace as bytes.
use crate::field::PRIME;
use crate::trace::{TABLES, Tables};

const MAGIC: &[u8] = b"MDTB";

const HEAD: usize = 36;

/// The version that is written; the one before it is read, too.
const VERSION: u32 = 2;

#[derive(Clone, Copy, Debug, PartialEq, Eq)]
pub enum Cause {
    Ended,
    Magic,
    Version,
    Count,
    Element,
    Extra,
}

/// The byte where the first bad field begins, and what is wrong with it.
pub type Malformed = (usize, Cause);

// How many rows a table may have: the least, the most, and of what it is a multiple.
fn counts(table: usize, version: u32) -> (u32, u32, u32) {
    match table {
        0 => (1, 1 << 19, 1),
        1 => (1, 1 << 17, 1),
        2 | 3 => (0, 1 << 22, 8),
        4 => (0, 1 << 19, 1),
        5 => (0, 255, 1),
        _ => (0, if version == 1 { 1 << 19 } else { 1 << 20 }, 1),
    }
}

fn number(bytes: &[u8], at: usize) -> Result<u32, Malformed> {
    let field = bytes.get(at..at + 4).ok_or((at, Cause::Ended))?;
    Ok(u32::from_le_bytes([field[0], field[1], field[2], field[3]]))
}

/// Bytes that are read to some place.
struct Reader<'a> {
    bytes: &'a [u8],
    at: usize,
}

impl Reader<'_> {
    fn rows<const N: usize>(&mut self, count: usize) -> Result<Vec<[u64; N]>, Malformed> {
        let later = &self.bytes[self.at..];
        let Some(cells) = later.get(..8 * N * count) else {
            let whole = later.len() / 8 * 8;
            return Err(self.bad_element(&later[..whole]).unwrap_or((self.at + whole, Cause::Ended)));
        };
        let mut rows = Vec::with_capacity(count);
        for bytes in cells.chunks_exact(8 * N) {
            let mut row = [0; N];
            for (cell, bytes) in row.iter_mut().zip(bytes.chunks_exact(8)) {
                *cell = element(bytes);
            }
            if row.iter().any(|cell| *cell >= PRIME) {
                return Err(self.bad_element(cells).unwrap_or((self.at, Cause::Element)));
            }
            rows.push(row);
        }
        self.at += cells.len();
        Ok(rows)
    }

    // The first of these cells, which stand where the reader is, that is no element.
    fn bad_element(&self, cells: &[u8]) -> Option<Malformed> {
        let place = cells.chunks_exact(8).position(|bytes| element(bytes) >= PRIME)?;
        Some((self.at + 8 * place, Cause::Element))
    }
}

fn element(bytes: &[u8]) -> u64 {
    u64::from_le_bytes(bytes.try_into().expect("eight bytes"))
}

/// The tables that bytes are, or the first field that is bad.
pub fn decode(bytes: &[u8]) -> Result<Tables, Malformed> {
    let magic = bytes.get(..MAGIC.len()).ok_or((0, Cause::Ended))?;
    if magic != MAGIC {
        return Err((0, Cause::Magic));
    }
    let version = number(bytes, 4)?;
    if !(1..=VERSION).contains(&version) {
        return Err((4, Cause::Version));
    }
    let mut rows = [0; TABLES.len()];
    for (table, count) in rows.iter_mut().enumerate() {
        let at = 8 + 4 * table;
        let (least, most, unit) = counts(table, version);
        let number = number(bytes, at)?;
        if number < least || number > most || number % unit != 0 {
            return Err((at, Cause::Count));
        }
        *count = number as usize;
    }
    let mut reader = Reader { bytes, at: HEAD };
    let [main, range, hasher, bitwise, memory, kernel, left] = rows;
    let tables = Tables {
        main: reader.rows(main)?,
        range: reader.rows(range)?,
        hasher: reader.rows(hasher)?,
        bitwise: reader.rows(bitwise)?,
        memory: reader.rows(memory)?,
        kernel: reader.rows(kernel)?,
        left: reader.rows(left)?,
    };
    if reader.at < bytes.len() { Err((reader.at, Cause::Extra)) } else { Ok(tables) }
}

// Writes rows to the front of the bytes, and gives the bytes behind them.
fn write_rows<'a, const N: usize>(bytes: &'a mut [u8], rows: &[[u64; N]]) -> &'a mut [u8] {
    let (front, later) = bytes.split_at_mut(8 * N * rows.len());
    for (part, cell) in front.chunks_exact_mut(8).zip(rows.as_flattened()) {
        part.copy_from_slice(&cell.to_le_bytes());
    }
    later
}

/// The one spelling of tables.
pub fn encode(tables: &Tables) -> Vec<u8> {
    let counts = tables.counts();
    let cells: usize = counts.iter().zip(TABLES).map(|(count, (_, width))| count * width).sum();
    let mut bytes = vec![0; HEAD + 8 * cells];
    bytes[..4].copy_from_slice(MAGIC);
    bytes[4..8].copy_from_slice(&VERSION.to_le_bytes());
    for (part, count) in bytes[8..HEAD].chunks_exact_mut(4).zip(counts) {
        part.copy_from_slice(&(count as u32).to_le_bytes());
    }
    let later = write_rows(&mut bytes[HEAD..], &tables.main);
    let later = write_rows(later, &tables.range);
    let later = write_rows(later, &tables.hasher);
    let later = write_rows(later, &tables.bitwise);
    let later = write_rows(later, &tables.memory);
    let later = write_rows(later, &tables.kernel);
    write_rows(later, &tables.left);
    bytes
}
