//! The processor: blocks are run one cycle after another, until the outermost one ends, a cycle traps or the cycles are used up.
use super::blocks::{Block, Parts, permuted};
use super::log::{Access, Event, Log};
use crate::batches::{Batch, in_use};
use crate::field::{Word, add, inverse, mul, negative};
use crate::mixer::Mixing;
use crate::operations::*;
use crate::permutation::{Params, State};
use std::collections::HashMap;

/// The greatest limit of a run.
pub const MOST_CYCLES: u32 = 524_287;

const MOST_NESTING: u16 = 1024;

/// Why a cycle traps, by its name.
#[derive(Clone, Copy, Debug, PartialEq, Eq)]
pub enum TrapCause {
    NestedTooDeep,
    UnknownTarget,
    NotBinary,
    CallInSyscall,
    NotInKernel,
    DepthAtReturn,
    ZeroInverse,
    AddressRange,
    NotInSyscall,
    AdviceEmpty,
    NotU32,
    DivideByZero,
    AssertFailed,
}

/// Why a run has no end.
#[derive(Clone, Copy, Debug, PartialEq, Eq)]
pub enum Stop {
    Trap { clock: u32, cause: TrapCause },
    OutOfCycles,
}

/// Why a cycle is not done.
enum Halt {
    Trap(TrapCause),
    OutOfCycles,
}

impl From<TrapCause> for Halt {
    fn from(cause: TrapCause) -> Halt {
        Halt::Trap(cause)
    }
}

pub struct Machine<'a> {
    params: &'a Params,
    blocks: &'a [Block],
    kernel: &'a [Word],
    limit: usize,
    tape: std::vec::IntoIter<u64>,
    memory: HashMap<u64, Word, Mixing>,
    context: u32,
    fmp: u64,
    in_syscall: bool,
    function: u32,
    nesting: u16,
    top: [u64; 16],
    /// The cells below the sixteenth, the lowest first.
    below: Vec<u64>,
    stand_in: Option<&'a StandIn<'a>>,
    pub log: Log,
}

/// What runs in the place of a block at a clock.
pub type StandIn<'a> = dyn Fn(usize, usize) -> usize + 'a;

fn bit(cell: u64) -> Result<u64, TrapCause> {
    if cell < 2 { Ok(cell) } else { Err(TrapCause::NotBinary) }
}

fn small(cell: u64) -> Result<u64, TrapCause> {
    if cell < 1 << 32 { Ok(cell) } else { Err(TrapCause::NotU32) }
}

impl<'a> Machine<'a> {
    /// A machine before its first cycle, which may do so many.
    pub fn new(
        params: &'a Params,
        blocks: &'a [Block],
        kernel: &'a [Word],
        stack: &[u64],
        tape: Vec<u64>,
        limit: u32,
    ) -> Machine<'a> {
        let mut top = [0; 16];
        let (first, deep) = stack.split_at(stack.len().min(16));
        top[..first.len()].copy_from_slice(first);
        Machine {
            params,
            blocks,
            kernel,
            limit: limit as usize,
            tape: tape.into_iter(),
            memory: HashMap::default(),
            context: 0,
            fmp: 1 << 30,
            in_syscall: false,
            function: 0,
            nesting: 0,
            top,
            below: deep.iter().rev().copied().collect(),
            stand_in: None,
            log: Log::default(),
        }
    }

    /// Has another block of the same digest run in the place of one. The trace of such a run shows that two hashes have one digest.
    pub fn with_stand_in(self, stand_in: &'a StandIn<'a>) -> Machine<'a> {
        Machine { stand_in: Some(stand_in), ..self }
    }

    /// Runs a block from the start, and writes HALT behind its cycles.
    pub fn run(&mut self, place: usize) -> Result<(), Stop> {
        match self.block(place) {
            Ok(()) => {
                self.log.events.push(self.shown(HALT, place, 0));
                Ok(())
            }
            Err(Halt::Trap(cause)) => Err(Stop::Trap { clock: self.log.events.len() as u32 - 1, cause }),
            Err(Halt::OutOfCycles) => Err(Stop::OutOfCycles),
        }
    }

    /// The whole stack, the top first.
    pub fn stack(&self) -> Vec<u64> {
        self.top.iter().chain(self.below.iter().rev()).copied().collect()
    }

    fn shown(&self, op: u8, block: usize, number: usize) -> Event {
        Event {
            op,
            in_syscall: self.in_syscall,
            nesting: self.nesting,
            block: block as u32,
            number: number as u32,
            depth: 16 + self.below.len() as u32,
            context: self.context,
            function: self.function,
            fmp: self.fmp,
            cells: self.top,
        }
    }

    // A cycle begins. What traps in it traps behind this.
    fn event(&mut self, op: u8, block: usize, number: usize) -> Result<(), Halt> {
        if self.log.events.len() >= self.limit {
            return Err(Halt::OutOfCycles);
        }
        self.log.events.push(self.shown(op, block, number));
        Ok(())
    }

    fn push(&mut self, cell: u64) {
        self.below.push(self.top[15]);
        self.top.copy_within(0..15, 1);
        self.top[0] = cell;
    }

    fn pop(&mut self) -> u64 {
        let cell = self.top[0];
        self.top.copy_within(1..16, 0);
        self.top[15] = self.below.pop().unwrap_or(0);
        cell
    }

    fn start(&mut self, op: u8, place: usize) -> Result<(), Halt> {
        self.event(op, place, 0)?;
        if self.nesting == MOST_NESTING {
            return Err(Halt::Trap(TrapCause::NestedTooDeep));
        }
        self.nesting += 1;
        Ok(())
    }

    fn end(&mut self, place: usize, entered: usize) -> Result<(), Halt> {
        self.event(END, place, entered)?;
        self.nesting -= 1;
        Ok(())
    }

    fn block(&mut self, place: usize) -> Result<(), Halt> {
        let place = self.stand_in.map_or(place, |stand_in| stand_in(place, self.log.events.len()));
        let blocks = self.blocks;
        match &blocks[place].parts {
            Parts::Span(batches) => self.span(place, batches),
            Parts::Join(first, second) => {
                self.start(JOIN, place)?;
                self.block(*first)?;
                self.block(*second)?;
                self.end(place, 0)
            }
            Parts::Split(first, second) => {
                self.start(SPLIT, place)?;
                let condition = bit(self.top[0])?;
                self.pop();
                self.block(if condition == 1 { *first } else { *second })?;
                self.end(place, 0)
            }
            Parts::Loop(body) => self.turns(place, *body),
            Parts::Call(callee) => self.call(CALL, place, *callee),
            Parts::Syscall(callee) => self.call(SYSCALL, place, *callee),
            Parts::Dyn(targets) => {
                let [a, b, c, d, ..] = self.top;
                let target = targets.iter().find(|target| blocks[**target].digest == [d, c, b, a]);
                self.start(DYN, place)?;
                self.block(*target.ok_or(TrapCause::UnknownTarget)?)?;
                self.end(place, 0)
            }
        }
    }

    fn span(&mut self, place: usize, batches: &[Batch]) -> Result<(), Halt> {
        self.start(SPAN, place)?;
        for (number, batch) in batches.iter().enumerate() {
            if number > 0 {
                self.event(RESPAN, place, number)?;
            }
            self.batch(batch)?;
        }
        self.end(place, 0)
    }

    fn turns(&mut self, place: usize, body: usize) -> Result<(), Halt> {
        let at = self.log.events.len();
        self.start(LOOP, place)?;
        let enters = bit(self.top[0])? == 1;
        self.pop();
        if !enters {
            return self.end(place, 0);
        }
        loop {
            self.block(body)?;
            if self.top[0] == 0 {
                break;
            }
            self.event(REPEAT, place, 0)?;
            bit(self.top[0])?;
            self.log.events[at].number += 1;
            self.pop();
        }
        self.end(place, 1)?;
        self.pop();
        Ok(())
    }

    fn call(&mut self, op: u8, place: usize, callee: usize) -> Result<(), Halt> {
        self.start(op, place)?;
        if self.in_syscall {
            return Err(Halt::Trap(TrapCause::CallInSyscall));
        }
        let before = (self.context, self.fmp, self.in_syscall, self.function);
        if op == CALL {
            (self.context, self.fmp, self.function) = (self.log.events.len() as u32, 1 << 30, callee as u32 + 1);
        } else if self.kernel.contains(&self.blocks[callee].digest) {
            (self.context, self.fmp, self.in_syscall) = (0, 1 << 31, true);
        } else {
            return Err(Halt::Trap(TrapCause::NotInKernel));
        }
        let hidden = std::mem::take(&mut self.below);
        self.block(callee)?;
        self.end(place, 0)?;
        if !self.below.is_empty() {
            return Err(Halt::Trap(TrapCause::DepthAtReturn));
        }
        (self.context, self.fmp, self.in_syscall, self.function) = before;
        self.below = hidden;
        Ok(())
    }

    // The operations of a batch: groups, and each immediate at the next position.
    fn batch(&mut self, batch: &Batch) -> Result<(), Halt> {
        let in_use = in_use(batch);
        let (mut group, mut next) = (batch[0], 1);
        loop {
            let op = (group % 128) as u8;
            group /= 128;
            self.event(op, 0, 0)?;
            let immediate = if op == PUSH { batch[next] } else { 0 };
            self.step(op, immediate)?;
            if op == PUSH {
                next += 1;
            } else if group == 0 {
                if next == in_use {
                    return Ok(());
                }
                group = batch[next];
                next += 1;
            }
        }
    }

    fn step(&mut self, op: u8, immediate: u64) -> Result<(), TrapCause> {
        let [a, b, ..] = self.top;
        match op {
            NOOP => {}
            EQZ => self.top[0] = u64::from(a == 0),
            NEG => self.top[0] = negative(a),
            INVERT if a == 0 => return Err(TrapCause::ZeroInverse),
            INVERT => self.top[0] = inverse(a),
            INCR => self.top[0] = add(a, 1),
            NOT => self.top[0] = 1 - bit(a)?,
            FMPADD => self.top[0] = add(a, self.fmp),
            SWAP..=SWAPDW if op != CALLER => self.turn(op),
            ASSERT if a != 1 => return Err(TrapCause::AssertFailed),
            ASSERT | DROP => _ = self.pop(),
            PAD => self.push(0),
            DUP0..=DUP15 => self.push(self.top[copied(op)]),
            SDEPTH => self.push(16 + self.below.len() as u64),
            CLK => self.push(self.log.events.len() as u64 - 1),
            PUSH => self.push(immediate),
            ADVPOP => self.take_element()?,
            ADVPOPW => self.take_word()?,
            CALLER => self.caller()?,
            FMPUPDATE => {
                self.fmp = add(self.fmp, a);
                self.pop();
            }
            HPERM => self.permute(),
            MLOAD | MLOADW | MSTORE | MSTOREW => self.access(op)?,
            EQ..=OR => {
                let value = two(op, a, b)?;
                self.pop();
                self.top[0] = value;
            }
            CSWAP | CSWAPW => self.swap_if(op)?,
            _ => self.number(op)?,
        }
        Ok(())
    }

    // A move of cells.
    fn turn(&mut self, op: u8) {
        match op {
            SWAP => self.top.swap(0, 1),
            SWAPDW => self.top.rotate_left(8),
            SWAPW..=SWAPW3 => {
                let (word, others) = self.top.split_at_mut(4);
                word.swap_with_slice(&mut others[4 * usize::from(op - SWAPW)..][..4]);
            }
            _ if op % 2 == 0 => self.top[..=turned(op)].rotate_right(1),
            _ => self.top[..=turned(op)].rotate_left(1),
        }
    }

    fn take_element(&mut self) -> Result<(), TrapCause> {
        let element = self.tape.next().ok_or(TrapCause::AdviceEmpty)?;
        self.push(element);
        Ok(())
    }

    fn take_word(&mut self) -> Result<(), TrapCause> {
        if self.tape.len() < 4 {
            return Err(TrapCause::AdviceEmpty);
        }
        for cell in self.top[..4].iter_mut().rev() {
            *cell = self.tape.next().unwrap_or(0);
        }
        Ok(())
    }

    fn caller(&mut self) -> Result<(), TrapCause> {
        if !self.in_syscall {
            return Err(TrapCause::NotInSyscall);
        }
        let [d0, d1, d2, d3] = self.function.checked_sub(1).map_or([0; 4], |place| self.blocks[place as usize].digest);
        self.top[..4].copy_from_slice(&[d3, d2, d1, d0]);
        Ok(())
    }

    fn swap_if(&mut self, op: u8) -> Result<(), TrapCause> {
        let condition = bit(self.top[0])?;
        self.pop();
        let words = if op == CSWAPW { 4 } else { 1 };
        if condition == 1 {
            self.top[..2 * words].rotate_left(words);
        }
        Ok(())
    }

    fn permute(&mut self) {
        let mut state: State = std::array::from_fn(|i| self.top[11 - i]);
        permuted(self.params, true, false, false, &mut state, &mut self.log.permutations);
        self.top[..12].copy_from_slice(&state);
        self.top[..12].reverse();
    }

    fn access(&mut self, op: u8) -> Result<(), TrapCause> {
        let address = u32::try_from(self.top[0]).map_err(|_| TrapCause::AddressRange)?;
        let clock = self.log.events.len() as u32 - 1;
        let word = self.memory.entry(u64::from(self.context) << 32 | u64::from(address)).or_default();
        let kind = match op {
            MSTORE => {
                word[0] = self.top[1];
                2
            }
            MSTOREW => {
                *word = [self.top[4], self.top[3], self.top[2], self.top[1]];
                1
            }
            _ => 0,
        };
        let word = *word;
        self.log.accesses.push(Access { kind, context: self.context, address, clock, word });
        if op == MLOAD {
            self.top[0] = word[0];
            return Ok(());
        }
        self.pop();
        if op == MLOADW {
            self.top[..4].copy_from_slice(&word);
            self.top[..4].reverse();
        }
        Ok(())
    }

    // An operation on numbers of 32 bits.
    fn number(&mut self, op: u8) -> Result<(), TrapCause> {
        let [a, b, c, ..] = self.top;
        if op == U32SPLIT {
            self.push(a >> 32);
            self.top[1] = a & 0xffff_ffff;
            return Ok(());
        }
        let (a, b) = (small(a)?, small(b)?);
        let (high, low) = match op {
            U32ASSERT2 => return Ok(()),
            U32AND | U32XOR => {
                self.pop();
                self.top[0] = if op == U32AND { a & b } else { a ^ b };
                return Ok(());
            }
            U32DIV if a == 0 => return Err(TrapCause::DivideByZero),
            U32DIV => (b % a, b / a),
            U32SUB => (u64::from(b < a), b.wrapping_sub(a) & 0xffff_ffff),
            U32ADD => halves(a + b),
            U32MUL => halves(a * b),
            U32ADD3 => halves(a + b + small(c)?),
            _ => halves(a * b + small(c)?),
        };
        if op == U32ADD3 || op == U32MADD {
            self.pop();
        }
        (self.top[0], self.top[1]) = (high, low);
        Ok(())
    }
}

// The value of an operation of two elements.
fn two(op: u8, a: u64, b: u64) -> Result<u64, TrapCause> {
    Ok(match op {
        EQ => u64::from(a == b),
        ADD => add(a, b),
        MUL => mul(a, b),
        AND => bit(a)? & bit(b)?,
        _ => bit(a)? | bit(b)?,
    })
}

fn halves(number: u64) -> (u64, u64) {
    (number >> 32, number & 0xffff_ffff)
}
