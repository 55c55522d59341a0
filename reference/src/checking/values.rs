//! The values of all constraints at a row, as docs/CONSTRAINTS.md lists them: the first that is not 0 refuses a table file.
use crate::field::{PRIME, add, difference, mul};
use crate::formats::statements::Statement;
use crate::operations::*;
use crate::permutation::{Params, State, before_roots};
use crate::trace::Row;
use crate::trace::columns::*;
use std::ops::{Add, Mul, Sub};

/// An element, for formulas.
#[derive(Clone, Copy, PartialEq)]
struct Felt(u64);

const ZERO: Felt = Felt(0);
const ONE: Felt = Felt(1);

impl Add for Felt {
    type Output = Felt;

    fn add(self, other: Felt) -> Felt {
        Felt(add(self.0, other.0))
    }
}

impl Sub for Felt {
    type Output = Felt;

    fn sub(self, other: Felt) -> Felt {
        Felt(difference(self.0, other.0))
    }
}

impl Mul for Felt {
    type Output = Felt;

    fn mul(self, other: Felt) -> Felt {
        Felt(mul(self.0, other.0))
    }
}

fn total(terms: impl IntoIterator<Item = Felt>) -> Felt {
    terms.into_iter().fold(ZERO, |sum, term| sum + term)
}

// 0 exactly where the element is a bit.
fn bit(a: Felt) -> Felt {
    a * (a - ONE)
}

/// What rows are tested against, beside the rows after them.
pub struct Claim<'a> {
    pub params: &'a Params,
    pub statement: &'a Statement,
    pub kernel_rows: usize,
    pub left_rows: usize,
    pub left_key: u64,
}

// The first value that is not 0, with its number.
fn first(values: impl IntoIterator<Item = Felt>) -> Option<(usize, u64)> {
    values.into_iter().enumerate().find(|(_, value)| *value != ZERO).map(|(i, value)| (i + 1, value.0))
}

const CODES: usize = DYN as usize + 1;

/// A row of the main table with its flags.
struct Flagged<'a> {
    row: &'a Row,
    flags: [Felt; CODES],
}

impl Flagged<'_> {
    fn of(row: &Row) -> Flagged<'_> {
        let factor = |code: usize, j: usize| {
            let bit = Felt(row[B + j]);
            if code >> j & 1 == 1 { bit } else { ONE - bit }
        };
        let flags = std::array::from_fn(|code| (0..7).fold(ONE, |product, j| product * factor(code, j)));
        Flagged { row, flags }
    }

    fn at(&self, column: usize) -> Felt {
        Felt(self.row[column])
    }

    fn is(&self, code: u8) -> Felt {
        self.flags[code as usize]
    }

    fn any(&self, test: impl Fn(u8) -> bool) -> Felt {
        total((0..=DYN).filter(|code| test(*code)).map(|code| self.is(code)))
    }

    fn starts(&self) -> Felt {
        self.any(is_start)
    }

    fn batches(&self) -> Felt {
        self.is(SPAN) + self.is(RESPAN)
    }

    fn calls(&self) -> Felt {
        self.is(CALL) + self.is(SYSCALL)
    }

    fn returns(&self) -> Felt {
        self.is(END) * (self.at(H + 6) + self.at(H + 7))
    }

    fn rest(&self) -> Felt {
        self.at(H) - total((0..7).map(|j| Felt(1 << j) * self.at(B + j)))
    }

    fn rest_flag(&self) -> Felt {
        self.rest() * self.at(W + 3)
    }

    fn goes_on(&self) -> Felt {
        self.rest_flag() + self.is(PUSH) * (ONE - self.rest_flag())
    }

    fn deeper(&self) -> Felt {
        (self.at(DEPTH) - Felt(16)) * self.at(INV)
    }

    fn shifts_left(&self) -> Felt {
        self.any(|code| moved(code).1 < moved(code).0) + self.is(END) * self.at(H + 4)
    }

    fn shifts_right(&self) -> Felt {
        self.any(|code| moved(code).0 < moved(code).1)
    }

    fn limbs(&self, j: usize) -> Felt {
        self.at(T + j) + Felt(65536) * self.at(T + j + 1)
    }
}

/// The first constraint of a row of the main table whose value is not 0, with its value.
pub fn main_fault(claim: &Claim, i: usize, row: &Row, next: Option<&Row>) -> Option<(usize, u64)> {
    let x = Flagged::of(row);
    let y = next.map(Flagged::of);
    let pair = |value: &dyn Fn(&Flagged) -> Felt| y.as_ref().map_or(ZERO, value);
    let mut values: Vec<Felt> = (0..7).map(|j| bit(x.at(B + j))).collect();
    values.push(ONE - x.any(|_| true));
    values.push(if i == 0 { x.at(CLOCK) } else { ZERO });
    values.push(pair(&|y| y.at(CLOCK) - x.at(CLOCK) - ONE));
    values.extend(start_values(claim, &x).map(|value| if i == 0 { value } else { ZERO }));
    values.extend(end_values(claim, &x).map(|value| if next.is_none() { value } else { ZERO }));
    values.extend(follow_values(&x, &pair));
    values.extend(shown_values(&x));
    values.extend(kept_values(&x, &pair));
    values.extend(batch_values(&x, &pair));
    values.extend(group_values(&x, &pair));
    values.extend(depth_values(&x, &pair));
    values.extend((0..16).map(|j| pair(&|y| total((0..=DYN).map(|code| x.is(code) * term(code, j, &x, y))))));
    values.extend(operand_values(&x, &pair));
    values.extend(number_values(&x, &pair));
    values.extend((0..4).map(|j| x.is(DYN) * x.at(H + j)));
    assert!(values.len() == 151, "all constraints");
    first(values)
}

type Pair<'a> = &'a dyn Fn(&dyn Fn(&Flagged) -> Felt) -> Felt;

// 11 to 40
fn start_values<'a>(claim: &'a Claim, x: &'a Flagged) -> impl Iterator<Item = Felt> + use<'a> {
    let Statement { inputs, outputs, kernel, .. } = claim.statement;
    let front = [ONE - x.starts(), x.at(ADDR), x.at(CTX), x.at(FMP) - Felt(1 << 30), x.at(SYS)];
    let digest = (0..4).map(|j| x.at(F + j));
    let key = if inputs.len() > 16 { PRIME - 1 } else { 0 };
    let stack = [x.at(LV), x.at(DEPTH) - Felt(inputs.len().max(16) as u64), x.at(KEY) - Felt(key)];
    let cells = (0..16).map(|j| x.at(S + j) - Felt(inputs.get(j).copied().unwrap_or(0)));
    let counts = [
        Felt(claim.kernel_rows as u64) - Felt(kernel.len() as u64),
        Felt(claim.left_rows as u64) - (Felt(outputs.len() as u64) - Felt(16)),
    ];
    front.into_iter().chain(digest).chain(stack).chain(cells).chain(counts)
}

// 41 to 59
fn end_values<'a>(claim: &'a Claim, x: &'a Flagged) -> impl Iterator<Item = Felt> + use<'a> {
    let outputs = &claim.statement.outputs;
    let depth = x.at(DEPTH) - Felt(outputs.len() as u64);
    let front = [ONE - x.is(HALT), depth, x.at(KEY) - Felt(claim.left_key)];
    front.into_iter().chain((0..16).map(|j| x.at(S + j) - Felt(outputs.get(j).copied().unwrap_or(0))))
}

// 60 to 69
fn follow_values(x: &Flagged, pair: Pair) -> [Felt; 10] {
    let s0 = x.at(S);
    let opens = x.is(JOIN) + x.is(SPLIT) + x.calls() + x.is(REPEAT) + x.is(DYN) + x.is(LOOP) * s0;
    [
        pair(&|_| x.is(HALT)),
        x.at(SP) - x.any(is_ordinary),
        pair(&|y| opens * (ONE - y.starts())),
        pair(&|y| x.is(LOOP) * (ONE - s0) * (ONE - y.is(END))),
        pair(&|y| x.batches() * (ONE - y.at(SP))),
        pair(&|y| x.at(SP) * (ONE - y.at(SP) - y.is(END) - y.is(RESPAN))),
        pair(&|y| x.is(END) * (ONE - y.starts() - y.is(END) - y.is(REPEAT) - y.is(HALT))),
        (x.is(SPLIT) + x.is(LOOP)) * bit(s0),
        x.is(REPEAT) * (s0 - ONE),
        x.is(END) * x.at(H + 4) * s0,
    ]
}

// 70 to 81
fn shown_values(x: &Flagged) -> Vec<Felt> {
    let kinds = total((4..8).map(|j| x.at(H + j)));
    let mut values: Vec<Felt> = (4..8).map(|j| x.is(END) * bit(x.at(H + j))).collect();
    values.push(x.is(END) * bit(kinds));
    values.extend((4..8).map(|j| (x.is(LOOP) + x.calls() + x.is(DYN)) * x.at(H + j)));
    values.extend([x.calls() * x.at(SYS), x.is(CALLER) * (ONE - x.at(SYS)), x.is(HALT) * x.at(ADDR)]);
    values
}

// 82 to 91
fn kept_values(x: &Flagged, pair: Pair) -> Vec<Felt> {
    let inside = ONE - x.calls() - x.returns();
    let grown = |y: &Flagged, column: usize| y.at(column) - x.at(column);
    let mut values = vec![
        pair(&|y| x.is(CALL) * (y.at(CTX) - x.at(CLOCK) - ONE) + x.is(SYSCALL) * y.at(CTX) + inside * grown(y, CTX)),
        pair(&|y| {
            x.is(CALL) * (y.at(FMP) - Felt(1 << 30))
                + x.is(SYSCALL) * (y.at(FMP) - Felt(1 << 31))
                + x.is(FMPUPDATE) * (grown(y, FMP) - x.at(S))
                + (inside - x.is(FMPUPDATE)) * grown(y, FMP)
        }),
        pair(&|y| x.is(CALL) * y.at(SYS) + x.is(SYSCALL) * (y.at(SYS) - ONE) + inside * grown(y, SYS)),
    ];
    values.extend((0..4).map(|j| {
        let kept = ONE - x.is(CALL) - x.returns();
        pair(&|y| x.is(CALL) * (y.at(F + j) - x.at(H + j)) + kept * grown(y, F + j))
    }));
    values.extend([
        pair(&|y| (ONE - x.starts() - x.is(END)) * grown(y, ADDR)),
        pair(&|y| grown(y, LV) - x.starts() + x.is(END)),
        pair(&|y| x.is(SPAN) * (y.at(HA) - y.at(ADDR)) + x.is(RESPAN) * (grown(y, HA) - Felt(8)) + x.at(SP) * grown(y, HA)),
    ]);
    values
}

// 92 to 106
fn batch_values(x: &Flagged, pair: Pair) -> Vec<Felt> {
    let [c0, c1, c2] = [0, 1, 2].map(|j| x.at(C + j));
    let (h, w) = (|j: usize| x.at(H + j), |j: usize| x.at(W + j));
    let b = x.batches();
    let unused = |q: usize| match q {
        1 => ONE - c0 - c1 - c2,
        2 | 3 => ONE - c0 - c1,
        _ => ONE - c0,
    };
    let needed = c0 * (h(4) * w(0) + h(5) * w(1) + h(6) * w(2) + h(7) * w(3) - ONE)
        + c1 * (h(2) * w(0) + h(3) * w(1) - ONE)
        + c2 * (h(1) * w(0) - ONE);
    let mut values = vec![b * bit(c0), b * bit(c1), b * bit(c2), b * bit(c0 + c1 + c2)];
    values.extend((1..8).map(|q| b * unused(q) * h(q)));
    values.extend([
        b * needed,
        pair(&|y| b * (y.at(H) - h(0))),
        pair(&|y| b * (y.at(GC) - Felt(7) * c0 - Felt(3) * c1 - c2)),
        pair(&|y| b * y.at(OX)),
    ]);
    values
}

// 107 to 114
fn group_values(x: &Flagged, pair: Pair) -> [Felt; 8] {
    let (sp, stay) = (x.at(SP), x.goes_on());
    [
        sp * x.rest() * (ONE - x.rest_flag()),
        pair(&|y| sp * stay * (ONE - y.at(SP))),
        pair(&|y| sp * stay * (Felt(128) * y.at(H) - x.rest())),
        pair(&|y| sp * stay * (y.at(OX) - x.at(OX) - ONE)),
        pair(&|y| sp * (ONE - stay) * y.at(SP) * y.at(OX)),
        pair(&|y| sp * (ONE - y.at(SP)) * x.at(GC)),
        pair(&|y| sp * y.at(SP) * (y.at(GC) - x.at(GC) + x.is(PUSH) + ONE - stay)),
        (0..9).fold(sp, |product, j| product * (x.at(OX) - Felt(j))),
    ]
}

// 115 to 118
fn depth_values(x: &Flagged, pair: Pair) -> [Felt; 4] {
    let (left, right, o) = (x.shifts_left(), x.shifts_right(), x.deeper());
    let keeps = ONE - right - left - x.calls() - x.returns();
    let grown = |y: &Flagged, column: usize| y.at(column) - x.at(column);
    [
        (x.at(DEPTH) - Felt(16)) * (ONE - o),
        pair(&|y| {
            right * (grown(y, DEPTH) - ONE)
                + left * (grown(y, DEPTH) + o)
                + x.calls() * (y.at(DEPTH) - Felt(16))
                + keeps * grown(y, DEPTH)
        }),
        x.returns() * (x.at(DEPTH) - Felt(16)),
        pair(&|y| {
            right * (y.at(KEY) - x.at(CLOCK)) + left * (ONE - o) * grown(y, KEY) + x.calls() * y.at(KEY) + keeps * grown(y, KEY)
        }),
    ]
}

// The cells of which an operation leaves copies, where it computes nothing.
fn source(code: u8, j: usize) -> Option<usize> {
    Some(match code {
        SWAP => 1 - j,
        U32ASSERT2 => j,
        MOVUP2..=MOVDN8 if code % 2 == 0 => {
            if j == 0 {
                turned(code)
            } else {
                j - 1
            }
        }
        MOVUP2..=MOVDN8 => {
            if j == turned(code) {
                0
            } else {
                j + 1
            }
        }
        SWAPW..=SWAPW3 => {
            let word = usize::from(code - SWAPW + 1);
            match j / 4 {
                0 => j + 4 * word,
                place if place == word => j % 4,
                _ => j,
            }
        }
        SWAPDW => (j + 8) % 16,
        DUP0..=DUP15 => copied(code),
        _ => return None,
    })
}

// The value of a cell that an operation leaves on top, under its flag.
fn top_term(code: u8, j: usize, x: &Flagged, y: &Flagged) -> Felt {
    let (s, left) = (|j: usize| x.at(S + j), y.at(S + j));
    if let Some(source) = source(code, j) {
        return left - s(source);
    }
    let chosen = |a: usize, b: usize| s(a) + s(0) * (s(b) - s(a));
    let other = |a: usize, b: usize| s(b) - s(0) * (s(b) - s(a));
    match code {
        EQZ => left - ONE + s(0) * x.at(W),
        EQ => left - ONE + (s(0) - s(1)) * x.at(W),
        NEG => left - (ZERO - s(0)),
        INVERT => s(0) * left - ONE,
        INCR => left - (s(0) + ONE),
        NOT => left - (ONE - s(0)),
        FMPADD => left - (s(0) + x.at(FMP)),
        CALLER => left - x.at(F + 3 - j),
        ADD => left - (s(0) + s(1)),
        MUL | AND => left - s(0) * s(1),
        OR => left - (s(0) + s(1) - s(0) * s(1)),
        CSWAP => left - if j == 0 { chosen(1, 2) } else { other(1, 2) },
        CSWAPW => left - if j < 4 { chosen(j + 1, j + 5) } else { other(j - 3, j + 1) },
        PAD => left,
        SDEPTH => left - x.at(DEPTH),
        CLK => left - x.at(CLOCK),
        _ => ZERO,
    }
}

// 119 to 134: the value of cell j under the flag of an operation.
fn term(code: u8, j: usize, x: &Flagged, y: &Flagged) -> Felt {
    let stays = y.at(S + j) - x.at(S + j);
    let rises = || if j == 15 { (ONE - x.deeper()) * y.at(S + 15) } else { y.at(S + j) - x.at(S + j + 1) };
    if code == END {
        return (ONE - x.at(H + 4)) * stays + x.at(H + 4) * rises();
    }
    let (takes, leaves) = moved(code);
    if j < leaves {
        top_term(code, j, x, y)
    } else if leaves < takes {
        rises()
    } else if takes < leaves {
        y.at(S + j) - x.at(S + j - 1)
    } else {
        stays
    }
}

// 135 to 139
fn operand_values(x: &Flagged, pair: Pair) -> [Felt; 5] {
    let (s0, s1) = (x.at(S), x.at(S + 1));
    [
        pair(&|y| x.is(EQZ) * s0 * y.at(S)),
        pair(&|y| x.is(EQ) * (s0 - s1) * y.at(S)),
        (x.is(NOT) + x.is(AND) + x.is(OR) + x.is(CSWAP) + x.is(CSWAPW)) * bit(s0),
        (x.is(AND) + x.is(OR)) * bit(s1),
        x.is(ASSERT) * (s0 - ONE),
    ]
}

// 140 to 147
fn number_values(x: &Flagged, pair: Pair) -> [Felt; 8] {
    let [s0, s1, s2] = [0, 1, 2].map(|j| x.at(S + j));
    let [split, plus, minus, times, div] = [U32SPLIT, U32ADD, U32SUB, U32MUL, U32DIV].map(|code| x.is(code));
    let (three, fused) = (x.is(U32ADD3), x.is(U32MADD));
    let two = plus + minus + times + div + x.is(U32ASSERT2) + three + fused;
    let both = |y: &Flagged| y.at(S + 1) + Felt(1 << 32) * y.at(S);
    [
        two * (s0 - x.limbs(0)),
        two * (s1 - x.limbs(2)),
        (three + fused) * (s2 - x.limbs(4)),
        pair(&|y| {
            let low = y.at(S + 1);
            split * (low - x.limbs(0)) + (plus + minus + times + div) * (low - x.limbs(4)) + (three + fused) * (low - x.limbs(6))
        }),
        pair(&|y| {
            let high = y.at(S);
            split * (high - x.limbs(2))
                + plus * (high - x.at(T + 6))
                + three * (high - x.at(T + 8))
                + minus * bit(high)
                + (times + div) * (high - x.limbs(6))
                + fused * (high - x.limbs(8))
        }),
        pair(&|y| {
            split * (s0 - both(y))
                + plus * (s0 + s1 - both(y))
                + three * (s0 + s1 + s2 - both(y))
                + times * (s0 * s1 - both(y))
                + fused * (s0 * s1 + s2 - both(y))
                + minus * (s1 - s0 - y.at(S + 1) + Felt(1 << 32) * y.at(S))
                + div * (s1 - s0 * y.at(S + 1) - y.at(S))
        }),
        pair(&|y| (split + times + fused) * (ONE - (Felt(0xffff_ffff) - y.at(S)) * x.at(W)) * y.at(S + 1)),
        div * (s0 - x.limbs(6) - ONE - x.limbs(8)),
    ]
}

pub fn range_fault(i: usize, x: &[u64; 2], next: Option<&[u64; 2]>) -> Option<(usize, u64)> {
    let v = Felt(x[1]);
    let step = next.map(|y| [0, 1, 3, 9, 27, 81, 243, 729, 2187].iter().fold(ONE, |all, e| all * (Felt(y[1]) - v - Felt(*e))));
    first([if i == 0 { v } else { ZERO }, if next.is_none() { v - Felt(65535) } else { ZERO }, step.unwrap_or(ZERO)])
}

pub fn hasher_fault(claim: &Claim, i: usize, x: &[u64; 15], next: Option<&[u64; 15]>) -> Option<(usize, u64)> {
    let k = i % 8;
    let [mode, cont, more] = [Felt(x[0]), Felt(x[1]), Felt(x[2])];
    let only = |test: bool, value: Felt| if test { value } else { ZERO };
    let pair = |test: bool, value: &dyn Fn(&[u64; 15]) -> Felt| next.filter(|_| test).map_or(ZERO, value);
    let mut values = vec![bit(mode), bit(cont), bit(more), mode * (cont + more), only(i == 0, cont), only(next.is_none(), more)];
    values.push(only(k < 7, more));
    values.push(pair(k < 7, &|y| Felt(y[0]) - mode));
    values.push(pair(k < 7, &|y| Felt(y[1]) - cont));
    values.push(pair(k == 7, &|y| Felt(y[1]) - more));
    values.extend([0, 2, 3].map(|j| only(k == 0, (ONE - mode) * (ONE - cont) * Felt(x[3 + j]))));
    values.extend((0..4).map(|j| pair(k == 7, &|y| more * (Felt(y[3 + j]) - Felt(x[3 + j])))));
    if k < 7 {
        let state: &State = x[3..].try_into().expect("a state");
        let before = before_roots(claim.params, k, state);
        let seventh = |a: Felt| a * a * a * a * a * a * a;
        values.extend((0..12).map(|j| pair(true, &|y| seventh(Felt(y[3 + j])) - Felt(before[j]))));
    }
    first(values)
}

pub fn bitwise_fault(i: usize, x: &[u64; 12], next: Option<&[u64; 12]>) -> Option<(usize, u64)> {
    let k = i % 8;
    let four = |bits: [Felt; 4]| bits[0] + Felt(2) * bits[1] + Felt(4) * bits[2] + Felt(8) * bits[3];
    let parts = |row: &[u64; 12]| {
        let [a, b] = [3, 7].map(|from| [0, 1, 2, 3].map(|j| Felt(row[from + j])));
        let z = [0, 1, 2, 3].map(|j| a[j] * b[j] + Felt(row[0]) * (a[j] + b[j] - Felt(3) * (a[j] * b[j])));
        [four(a), four(b), four(z)]
    };
    let columns = [1, 2, 11];
    let mut values = vec![bit(Felt(x[0]))];
    values.extend(x[3..11].iter().map(|cell| bit(Felt(*cell))));
    let own = parts(x);
    values.extend((0..3).map(|j| if k == 0 { Felt(x[columns[j]]) - own[j] } else { ZERO }));
    if let Some(y) = next.filter(|_| k < 7) {
        let later = parts(y);
        values.push(Felt(y[0]) - Felt(x[0]));
        values.extend((0..3).map(|j| Felt(y[columns[j]]) - Felt(16) * Felt(x[columns[j]]) - later[j]));
    }
    first(values)
}

pub fn memory_fault(i: usize, x: &[u64; 14], next: Option<&[u64; 14]>) -> Option<(usize, u64)> {
    let [kind, ctx, addr, clk] = [0, 1, 2, 3].map(|j| Felt(x[j]));
    let [n0, n1, a0, a1] = [8, 9, 12, 13].map(|j| Felt(x[j]));
    let mut values = vec![
        kind * (kind - ONE) * (kind - Felt(2)),
        bit(n0),
        bit(n1),
        n0 * n1,
        addr - a0 - Felt(65536) * a1,
        if i == 0 { ONE - n0 } else { ZERO },
    ];
    let pairs = next.map(|y| {
        let [n0, n1, d0, d1] = [8, 9, 10, 11].map(|j| Felt(y[j]));
        let here = ONE - n0 - n1;
        let by = [ctx, addr, clk].map(|cell| cell + ONE + d0 + Felt(65536) * d1);
        [
            (ONE - n0) * (Felt(y[1]) - ctx),
            (ONE - n0) * (ONE - n1) * (Felt(y[2]) - addr),
            n0 * (Felt(y[1]) - by[0]) + n1 * (Felt(y[2]) - by[1]) + here * (Felt(y[3]) - by[2]),
        ]
    });
    values.extend(pairs.unwrap_or([ZERO; 3]));
    let keeps = |kind: Felt, j: usize| if j == 0 { (kind - ONE) * (kind - Felt(2)) } else { kind - ONE };
    values.extend((0..4).map(|j| if i == 0 { keeps(kind, j) * Felt(x[4 + j]) } else { ZERO }));
    if let Some(y) = next {
        let here = ONE - Felt(y[8]) - Felt(y[9]);
        values.extend((0..4).map(|j| keeps(Felt(y[0]), j) * (Felt(y[4 + j]) - here * Felt(x[4 + j]))));
    }
    first(values)
}

pub fn kernel_fault(claim: &Claim, i: usize, x: &[u64; 5]) -> Option<(usize, u64)> {
    let word = claim.statement.kernel.get(i).copied().unwrap_or([0; 4]);
    first((0..4).map(|j| Felt(x[j]) - Felt(word[j])))
}
