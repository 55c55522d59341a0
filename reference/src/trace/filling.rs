//! The tables of a run, filled from its log. The inverses that the rows of the main table ask for are computed all at once, by one
//! inverse and three products for each.
use super::columns::*;
use super::small::{bitwise_rows, kernel_rows, memory_rows, range_rows};
use super::tables::{Row, Tables};
use crate::batches::{Batch, in_use};
use crate::field::{PRIME, Word, difference, inverse, mul};
use crate::machine::{Access, Block, Event, Log, Parts};
use crate::operations::*;

/// Inverses that are asked for at cells of a table, taken together.
#[derive(Default)]
struct Inverses {
    asked: Vec<(usize, u64)>,
}

impl Inverses {
    fn ask(&mut self, cell: usize, element: u64) {
        if element != 0 {
            self.asked.push((cell, element));
        }
    }

    // Each cell holds the product of what was asked before, until all that comes behind it is divided out.
    fn answer(self, cells: &mut [u64]) {
        let mut product = 1;
        for (cell, element) in &self.asked {
            cells[*cell] = product;
            product = mul(product, *element);
        }
        let mut inverse = inverse(product);
        for (cell, element) in self.asked.iter().rev() {
            cells[*cell] = mul(cells[*cell], inverse);
            inverse = mul(inverse, *element);
        }
    }
}

/// A block that was started and not ended: where its hash starts, and the keys of the cells that a call hides.
struct Open {
    address: u64,
    hidden: Vec<u64>,
}

/// What rows show beside the machine's state: the open blocks, what is left of the batch, and the keys of the cells below the
/// sixteenth. And what they ask of the range table and of the kernel's.
struct Filler<'a> {
    blocks: &'a [Block],
    accesses: std::slice::Iter<'a, Access>,
    permutations: std::slice::ChunksExact<'a, [u64; 15]>,
    hasher: Vec<[u64; 15]>,
    inverses: Inverses,
    ranges: Vec<u64>,
    calls: Vec<Word>,
    open: Vec<Open>,
    ha: u64,
    batch: Batch,
    group: u64,
    place: u64,
    position: usize,
    left: u64,
    keys: Vec<u64>,
}

impl Filler<'_> {
    // The inputs below the sixteenth cell have the greatest elements as keys, the first one the greatest of them.
    fn new<'a>(blocks: &'a [Block], log: &'a Log, deep: u64) -> Filler<'a> {
        Filler {
            blocks,
            accesses: log.accesses.iter(),
            permutations: log.permutations.chunks_exact(8),
            hasher: Vec::new(),
            inverses: Inverses::default(),
            ranges: vec![0; 65536],
            calls: Vec::new(),
            open: Vec::new(),
            ha: 0,
            batch: [0; 8],
            group: 0,
            place: 0,
            position: 0,
            left: 0,
            keys: (1..=deep).rev().map(|i| PRIME - i).collect(),
        }
    }

    // Fills the row of a cycle, of zeros so far, before the cells behind it.
    fn fill(&mut self, x: &mut Row, clock: usize, event: &Event, behind: &[u64; 16]) {
        let op = event.op;
        (x[CLOCK], x[FMP], x[CTX], x[SYS]) = (clock as u64, event.fmp, event.context.into(), event.in_syscall.into());
        if event.function > 0 {
            x[F..F + 4].copy_from_slice(&self.blocks[event.function as usize - 1].digest);
        }
        x[ADDR] = self.open.last().map_or(0, |block| block.address);
        for j in 0..7 {
            x[B + j] = u64::from(op >> j & 1);
        }
        x[S..S + 16].copy_from_slice(&event.cells);
        x[DEPTH] = event.depth.into();
        x[KEY] = self.keys.last().copied().unwrap_or(0);
        (x[HA], x[LV]) = (self.ha, event.nesting.into());
        self.inverses.ask(65 * clock + INV, u64::from(event.depth) - 16);
        let block = &self.blocks[event.block as usize];
        match op {
            SPAN | RESPAN => self.begin(clock, x, block, event),
            END => self.end(x, block, event),
            HALT => {}
            JOIN..=REPEAT | DYN => {
                x[H..H + 8].copy_from_slice(&block.hash);
                x[W] = event.number.into();
                self.start(x, block, event);
            }
            _ => self.ordinary(clock, x, event, behind),
        }
    }

    // The place of the hasher's next row.
    fn next(&self) -> u64 {
        self.hasher.len() as u64 + 1
    }

    // A start that is no span's, or a REPEAT.
    fn start(&mut self, x: &mut Row, block: &Block, event: &Event) {
        if matches!(event.op, SPLIT | LOOP | REPEAT) {
            self.keys.pop();
        }
        if event.op != REPEAT {
            self.open(block, event);
        }
        if event.op == SYSCALL {
            self.calls.push([x[H], x[H + 1], x[H + 2], x[H + 3]]);
        }
    }

    fn open(&mut self, block: &Block, event: &Event) {
        let calls = event.op == CALL || event.op == SYSCALL;
        let hidden = if calls { std::mem::take(&mut self.keys) } else { Vec::new() };
        self.open.push(Open { address: self.next(), hidden });
        self.hasher.extend_from_slice(&block.rows);
        self.ranges[1023 - usize::from(event.nesting)] += 1;
    }

    fn begin(&mut self, clock: usize, x: &mut Row, block: &Block, event: &Event) {
        let Parts::Span(batches) = &block.parts else { panic!("a span's block") };
        self.batch = batches[event.number as usize];
        let in_use = in_use(&self.batch);
        x[H..H + 8].copy_from_slice(&self.batch);
        for (flag, count) in [8, 4, 2].into_iter().enumerate() {
            x[C + flag] = u64::from(in_use == count);
        }
        let upper = &self.batch[in_use / 2..in_use / 2 * 2];
        if let Some(j) = upper.iter().position(|position| *position != 0) {
            self.inverses.ask(65 * clock + W + j, upper[j]);
        }
        (self.group, self.place, self.position, self.left) = (self.batch[0], 0, 1, in_use as u64 - 1);
        self.ha = if event.op == SPAN { self.next() } else { self.ha + 8 };
        if event.op == SPAN {
            self.open(block, event);
        }
    }

    fn end(&mut self, x: &mut Row, block: &Block, event: &Event) {
        x[H..H + 4].copy_from_slice(&block.digest);
        let Open { hidden, .. } = self.open.pop().expect("an open block");
        self.ha = 0;
        match block.parts {
            Parts::Loop(_) if event.number == 1 => {
                x[H + 4] = 1;
                self.keys.pop();
            }
            Parts::Span(_) => x[H + 5] = 1,
            Parts::Call(_) => (x[H + 6], self.keys) = (1, hidden),
            Parts::Syscall(_) => (x[H + 7], self.keys) = (1, hidden),
            _ => {}
        }
    }

    fn ordinary(&mut self, clock: usize, x: &mut Row, event: &Event, behind: &[u64; 16]) {
        let op = event.op;
        (x[H], x[SP], x[GC], x[OX]) = (self.group, 1, self.left, self.place);
        let first = match op {
            EQZ => event.cells[0],
            EQ => difference(event.cells[0], event.cells[1]),
            U32SPLIT | U32MUL | U32MADD => 0xffff_ffff - behind[0],
            _ => 0,
        };
        self.inverses.ask(65 * clock + W, first);
        self.inverses.ask(65 * clock + W + 3, self.group - u64::from(op));
        match op {
            HPERM => {
                x[W] = self.next();
                self.hasher.extend_from_slice(self.permutations.next().expect("a permutation"));
            }
            MLOAD | MSTORE => x[T..T + 3].copy_from_slice(&self.accesses.next().expect("an access").word[1..]),
            MLOADW | MSTOREW => _ = self.accesses.next(),
            U32SPLIT | U32ADD..=U32ASSERT2 | U32ADD3 | U32MADD => self.limbs(x, op, &event.cells, behind),
            _ => {}
        }
        self.advance(op == PUSH);
        let (takes, leaves) = moved(op);
        if takes < leaves {
            self.keys.push(clock as u64);
        } else if leaves < takes {
            self.keys.pop();
        }
    }

    // The limbs of the operands, then those of what is left.
    fn limbs(&mut self, x: &mut Row, op: u8, cells: &[u64; 16], behind: &[u64; 16]) {
        let (low, high) = (behind[1], behind[0]);
        let [a, b, c, ..] = *cells;
        let numbers: &[u64] = match op {
            U32SPLIT => &[low, high],
            U32ASSERT2 => &[a, b],
            U32SUB => &[a, b, low],
            U32ADD | U32MUL => &[a, b, low, high],
            U32DIV => &[a, b, low, high, a - high - 1],
            _ => &[a, b, c, low, high],
        };
        for (j, number) in numbers.iter().enumerate() {
            x[T + 2 * j] = number & 0xffff;
            x[T + 2 * j + 1] = number >> 16;
        }
        for limb in &x[T..T + limbs(op)] {
            self.ranges[*limb as usize] += 1;
        }
    }

    // An operation of the group is taken.
    fn advance(&mut self, is_push: bool) {
        self.group /= 128;
        self.place += 1;
        if is_push {
            self.position += 1;
            self.left -= 1;
        } else if self.group == 0 {
            self.place = 0;
            if self.left > 0 {
                self.group = self.batch[self.position];
                self.position += 1;
                self.left -= 1;
            }
        }
    }
}

/// The tables of a run.
pub fn fill(blocks: &[Block], kernel: &[Word], log: Log) -> Tables {
    let events = &log.events;
    let deep = events.first().map_or(0, |event| u64::from(event.depth) - 16);
    let mut filler = Filler::new(blocks, &log, deep);
    let mut main = Vec::with_capacity(events.len());
    for (clock, event) in events.iter().enumerate() {
        let behind = &events[(clock + 1).min(events.len() - 1)].cells;
        main.push([0; 65]);
        filler.fill(&mut main[clock], clock, event, behind);
    }
    let Filler { inverses, mut ranges, calls, keys, hasher, .. } = filler;
    inverses.answer(main.as_flattened_mut());
    let bitwise = bitwise_rows(events);
    let Log { mut accesses, .. } = log;
    let memory = memory_rows(&mut accesses, &mut ranges);
    Tables {
        main,
        range: range_rows(&ranges),
        hasher,
        bitwise,
        memory,
        kernel: kernel_rows(kernel, &calls),
        left: keys.into_iter().rev().map(|key| [key]).collect(),
    }
}
