//! The buses: what each row asks and gives.
use super::tallies::{Apart, Tally, ValueTally};
use crate::field::{PRIME, Word, add, difference, mul};
use crate::formats::statements::Statement;
use crate::operations::*;
use crate::trace::Row;
use crate::trace::columns::*;

#[derive(Default)]
pub struct Buses {
    blocks: Tally<12>,
    children: Tally<6>,
    loops: Tally<5, u128>,
    groups: Tally<3>,
    overflow: Tally<3>,
    hash_starts: Tally<11>,
    hash_blocks: Tally<10>,
    hash_ends: Tally<6>,
    permutations: Tally<14>,
    bitwise: Tally<4>,
    memory: Tally<8>,
    range: ValueTally,
    kernel: Tally<4, u128>,
}

fn part<const N: usize>(row: &[u64], from: usize) -> [u64; N] {
    row[from..from + N].try_into().expect("cells of a row")
}

// A tuple of a front and a row's cells.
fn joined<const N: usize>(front: &[u64], cells: &[u64]) -> [u64; N] {
    let mut tuple = [0; N];
    tuple[..front.len()].copy_from_slice(front);
    tuple[front.len()..].copy_from_slice(cells);
    tuple
}

// What the END of a call brings back.
fn frame(x: &Row) -> [u64; 9] {
    [x[CTX], x[FMP], x[SYS], x[DEPTH], x[KEY], x[F], x[F + 1], x[F + 2], x[F + 3]]
}

impl Buses {
    /// What the statement gives.
    pub fn statement(&mut self, statement: &Statement) {
        self.children.give(joined(&[0], &[&statement.digest[..], &[0]].concat()));
        let deep = statement.inputs.get(16..).unwrap_or(&[]);
        for (i, cell) in deep.iter().enumerate() {
            let key = PRIME - 1 - i as u64;
            self.overflow.give([key, *cell, if i + 1 < deep.len() { key - 1 } else { 0 }]);
        }
    }

    /// Adds the counts of other rows.
    pub fn absorb(&mut self, other: Buses) {
        self.blocks.absorb(other.blocks);
        self.children.absorb(other.children);
        self.loops.absorb(other.loops);
        self.groups.absorb(other.groups);
        self.overflow.absorb(other.overflow);
        self.hash_starts.absorb(other.hash_starts);
        self.hash_blocks.absorb(other.hash_blocks);
        self.hash_ends.absorb(other.hash_ends);
        self.permutations.absorb(other.permutations);
        self.bitwise.absorb(other.bitwise);
        self.memory.absorb(other.memory);
        self.range.absorb(other.range);
        self.kernel.absorb(other.kernel);
    }

    /// What a row of the main table asks and gives, by its operation and that of the row behind it.
    pub fn main(&mut self, x: &Row, y: &Row, code: u8, behind: u8) {
        match code {
            NOOP..=PUSH => self.ordinary(x, y, code),
            RESPAN => {
                self.batch(x, y);
                self.hash_blocks.ask(joined(&[2, add(x[HA], 8)], &x[H..H + 8]));
            }
            END => self.end(x, y, behind),
            REPEAT => {
                self.children.give(joined(&[x[ADDR]], &[x[H], x[H + 1], x[H + 2], x[H + 3], 0]));
                self.loops.ask(joined(&[x[ADDR]], &x[H..H + 4]));
                self.lowers(x, y, true);
            }
            HALT => {}
            _ => self.start(x, y, code),
        }
    }

    fn start(&mut self, x: &Row, y: &Row, code: u8) {
        let own = y[ADDR];
        let (kind, domain) = match code {
            LOOP => (x[S], LOOP),
            SPAN => (2, 0),
            CALL => (3, CALL),
            SYSCALL => (4, SYSCALL),
            _ => (0, code),
        };
        let saved = if kind > 2 { frame(x) } else { [0; 9] };
        self.blocks.give(joined(&[own, x[ADDR], kind], &saved));
        let mut child = |[a, b, c, d]: Word, more: u64| self.children.give([own, a, b, c, d, more]);
        match code {
            JOIN => {
                child(part(x, H), 1);
                child(part(x, H + 4), 0);
            }
            SPLIT => child(part(x, if x[S] == 1 { H } else { H + 4 }), 0),
            DYN => child([x[S + 3], x[S + 2], x[S + 1], x[S]], 0),
            LOOP if x[S] == 0 => {}
            SPAN => {}
            _ => child(part(x, H), 0),
        }
        match code {
            SPAN => self.batch(x, y),
            LOOP => self.loops.add(joined(&[own], &x[H..H + 4]), x[W].into()),
            SYSCALL => self.kernel.ask(part(x, H)),
            _ => {}
        }
        self.lowers(x, y, code == SPLIT || code == LOOP);
        self.hash_starts.ask(joined(&[1, own, domain.into()], &x[H..H + 8]));
        self.range.ask(difference(1024, y[LV]));
    }

    fn batch(&mut self, x: &Row, y: &Row) {
        let count = 1 + 7 * x[C] + 3 * x[C + 1] + x[C + 2];
        for q in 1..count {
            self.groups.give([y[HA], count - q, x[H + q as usize]]);
        }
    }

    fn end(&mut self, x: &Row, y: &Row, behind: u8) {
        let kind = x[H + 4] + 2 * x[H + 5] + 3 * x[H + 6] + 4 * x[H + 7];
        let saved = if x[H + 6] + x[H + 7] == 1 { frame(y) } else { [0; 9] };
        self.blocks.ask(joined(&[x[ADDR], y[ADDR], kind], &saved));
        self.children.ask([y[ADDR], x[H], x[H + 1], x[H + 2], x[H + 3], is_start(behind).into()]);
        let last = if x[H + 5] == 1 { x[HA] } else { x[ADDR] };
        self.hash_ends.ask(joined(&[3, add(last, 7)], &x[H..H + 4]));
        self.lowers(x, y, x[H + 4] == 1);
    }

    // A cell comes back from below the sixteenth.
    fn lowers(&mut self, x: &Row, y: &Row, shifts: bool) {
        if shifts && x[DEPTH] != 16 {
            self.overflow.ask([x[KEY], y[S + 15], y[KEY]]);
        }
    }

    fn ordinary(&mut self, x: &Row, y: &Row, code: u8) {
        if code == PUSH {
            self.groups.ask([x[HA], x[GC], y[S]]);
        } else if y[SP] == 1 && mul(difference(x[H], code.into()), x[W + 3]) == 0 {
            self.groups.ask([x[HA], x[GC], y[H]]);
        }
        let (takes, leaves) = moved(code);
        if takes < leaves {
            self.overflow.give([x[CLOCK], x[S + 15], x[KEY]]);
        }
        self.lowers(x, y, leaves < takes);
        match code {
            U32SPLIT | U32ADD..=U32ASSERT2 | U32ADD3 | U32MADD => {
                for limb in &x[T..T + limbs(code)] {
                    self.range.ask(*limb);
                }
            }
            U32AND => self.bitwise.ask([0, x[S], x[S + 1], y[S]]),
            U32XOR => self.bitwise.ask([1, x[S], x[S + 1], y[S]]),
            MLOAD => self.access(0, x, [y[S], x[T], x[T + 1], x[T + 2]]),
            MLOADW => self.access(0, x, [y[S + 3], y[S + 2], y[S + 1], y[S]]),
            MSTORE => self.access(2, x, [x[S + 1], x[T], x[T + 1], x[T + 2]]),
            MSTOREW => self.access(1, x, [x[S + 4], x[S + 3], x[S + 2], x[S + 1]]),
            HPERM => {
                self.permutations.ask(permuted(4, x[W], x));
                self.permutations.ask(permuted(5, add(x[W], 7), y));
            }
            _ => {}
        }
    }

    fn access(&mut self, kind: u64, x: &Row, word: Word) {
        self.memory.ask(joined(&[kind, x[CTX], x[S], x[CLOCK]], &word));
    }

    pub fn range(&mut self, row: &[u64; 2]) {
        self.range.give(row[1], row[0]);
    }

    pub fn hasher(&mut self, i: usize, row: &[u64; 15]) {
        let address = i as u64 + 1;
        match i % 8 {
            0 if row[0] == 1 => self.permutations.give(joined(&[4, address], &row[3..])),
            0 if row[1] == 1 => self.hash_blocks.give(joined(&[2, address], &row[7..])),
            0 => self.hash_starts.give(joined(&[1, address, row[4]], &row[7..])),
            7 if row[0] == 1 => self.permutations.give(joined(&[5, address], &row[3..])),
            7 if row[2] == 0 => self.hash_ends.give(joined(&[3, address], &row[7..11])),
            _ => {}
        }
    }

    pub fn bitwise(&mut self, i: usize, row: &[u64; 12]) {
        if i % 8 == 7 {
            self.bitwise.give([row[0], row[1], row[2], row[11]]);
        }
    }

    pub fn memory(&mut self, row: &[u64; 14]) {
        self.memory.give(part(row, 0));
        for limb in &row[10..] {
            self.range.ask(*limb);
        }
    }

    pub fn kernel(&mut self, row: &[u64; 5]) {
        self.kernel.add(part(row, 0), row[4].into());
    }

    /// A row of the table of cells left, with its output and the key of the next row.
    pub fn left(&mut self, key: u64, output: u64, below: u64) {
        self.overflow.ask([key, output, below]);
    }

    /// The first bus of which a tuple is not asked as often as given, with its least such tuple.
    pub fn apart(&self) -> Option<(&'static str, Apart)> {
        let hasher = || {
            let ends = || self.hash_ends.apart().or_else(|| self.permutations.apart());
            self.hash_starts.apart().or_else(|| self.hash_blocks.apart()).or_else(ends)
        };
        let named = |name: &'static str, apart: Option<Apart>| apart.map(|apart| (name, apart));
        named("blocks", self.blocks.apart())
            .or_else(|| named("children", self.children.apart()))
            .or_else(|| named("loops", self.loops.apart()))
            .or_else(|| named("groups", self.groups.apart()))
            .or_else(|| named("overflow", self.overflow.apart()))
            .or_else(|| named("hasher", hasher()))
            .or_else(|| named("bitwise", self.bitwise.apart()))
            .or_else(|| named("memory", self.memory.apart()))
            .or_else(|| named("range", self.range.apart()))
            .or_else(|| named("kernel", self.kernel.apart()))
    }
}

// The state that HPERM permutes, element 0 first.
fn permuted(tag: u64, address: u64, row: &Row) -> [u64; 14] {
    let mut tuple = joined(&[tag, address], &row[S..S + 12]);
    tuple[2..].reverse();
    tuple
}
