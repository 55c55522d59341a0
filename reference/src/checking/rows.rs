//! Tests of rows: whether all constraints of a row are 0, without their values. A row's operation is decoded once, and only the
//! constraints that it can break are tested.
use super::values::Claim;
use crate::field::{PRIME, add, difference, mul};
use crate::formats::statements::Statement;
use crate::operations::*;
use crate::permutation::{State, before_roots, seventh_powers};
use crate::trace::Row;
use crate::trace::columns::*;

/// The code that a row's bits spell; none where one of them is no bit, or where they spell none.
pub fn code_in(x: &Row) -> Option<u8> {
    let (mut code, mut all) = (0, 0);
    for j in 0..7 {
        code |= x[B + j] << j;
        all |= x[B + j];
    }
    (all <= 1 && code <= DYN.into()).then_some(code as u8)
}

/// The first row shows the start.
pub fn starts(claim: &Claim, x: &Row, code: u8) -> bool {
    let Statement { inputs, outputs, kernel, .. } = claim.statement;
    is_start(code)
        && x[CLOCK] == 0
        && x[ADDR] == 0
        && x[CTX] == 0
        && x[FMP] == 1 << 30
        && x[SYS] == 0
        && x[F..F + 4] == [0; 4]
        && x[LV] == 0
        && x[DEPTH] == inputs.len().max(16) as u64
        && x[KEY] == if inputs.len() > 16 { PRIME - 1 } else { 0 }
        && (0..16).all(|j| x[S + j] == inputs.get(j).copied().unwrap_or(0))
        && claim.kernel_rows == kernel.len()
        && claim.left_rows + 16 == outputs.len()
}

/// The last row shows the end.
pub fn stops(claim: &Claim, x: &Row, code: u8) -> bool {
    let outputs = &claim.statement.outputs;
    code == HALT
        && x[SP] == 0
        && x[ADDR] == 0
        && deep_is_clean(x)
        && x[DEPTH] == outputs.len() as u64
        && x[KEY] == claim.left_key
        && x[S..S + 16] == outputs[..16]
}

/// A row and the one behind it, by their operations.
pub fn pair_is_clean(x: &Row, y: &Row, code: u8, behind: u8) -> bool {
    if y[CLOCK] != add(x[CLOCK], 1) || !deep_is_clean(x) {
        return false;
    }
    match code {
        NOOP..=PUSH => {
            let kept = if code == FMPUPDATE { y[FMP] == add(x[FMP], x[S]) } else { x[FMP] == y[FMP] };
            kept && frame_is_kept(x, y) && group_is_clean(code, x, y, behind) && step_is_clean(code, x, y)
        }
        END => end_is_clean(x, y, behind),
        HALT => false,
        _ => x[SP] == 0 && block_is_clean(code, x, y, behind),
    }
}

// A start of a block or of a batch, or a REPEAT.
fn block_is_clean(code: u8, x: &Row, y: &Row, behind: u8) -> bool {
    let level = if is_start(code) { add(x[LV], 1) } else { x[LV] };
    let (takes, leaves) = moved(code);
    if y[LV] != level || !is_start(code) && y[ADDR] != x[ADDR] {
        return false;
    }
    if code == CALL || code == SYSCALL {
        return call_is_clean(code, x, y, behind);
    }
    x[FMP] == y[FMP]
        && frame_is_kept(x, y)
        && stack_stays(x, y, takes, leaves)
        && match code {
            SPAN => batch_is_clean(x, y) && y[HA] == y[ADDR],
            RESPAN => batch_is_clean(x, y) && y[HA] == add(x[HA], 8),
            JOIN => is_start(behind),
            SPLIT => x[S] <= 1 && is_start(behind),
            DYN => x[H..H + 8] == [0; 8] && is_start(behind),
            LOOP => x[S] <= 1 && x[H + 4..H + 8] == [0; 4] && if x[S] == 1 { is_start(behind) } else { behind == END },
            _ => x[S] == 1 && is_start(behind),
        }
}

fn call_is_clean(code: u8, x: &Row, y: &Row, behind: u8) -> bool {
    let inside = if code == CALL {
        y[CTX] == add(x[CLOCK], 1) && y[FMP] == 1 << 30 && y[SYS] == 0 && y[F..F + 4] == x[H..H + 4]
    } else {
        y[CTX] == 0 && y[FMP] == 1 << 31 && y[SYS] == 1 && y[F..F + 4] == x[F..F + 4]
    };
    inside
        && x[H + 4..H + 8] == [0; 4]
        && x[SYS] == 0
        && is_start(behind)
        && y[DEPTH] == 16
        && y[KEY] == 0
        && y[S..S + 16] == x[S..S + 16]
}

fn end_is_clean(x: &Row, y: &Row, behind: u8) -> bool {
    let [entered, span, call, syscall] = [x[H + 4], x[H + 5], x[H + 6], x[H + 7]];
    if (entered | span | call | syscall) > 1 || entered + span + call + syscall > 1 {
        return false;
    }
    x[SP] == 0
        && (is_start(behind) || matches!(behind, END | REPEAT | HALT))
        && y[LV] == difference(x[LV], 1)
        && if call + syscall == 1 {
            x[DEPTH] == 16 && x[S..S + 16] == y[S..S + 16]
        } else {
            x[FMP] == y[FMP] && frame_is_kept(x, y) && (entered == 0 || x[S] == 0) && stack_stays(x, y, entered as usize, 0)
        }
}

// The witness of a deep stack.
fn deep_is_clean(x: &Row) -> bool {
    x[DEPTH] == 16 || mul(difference(x[DEPTH], 16), x[INV]) == 1
}

// What every row keeps but calls, syscalls and their ends.
fn frame_is_kept(x: &Row, y: &Row) -> bool {
    x[CTX] == y[CTX] && x[SYS] == y[SYS] && x[F..F + 4] == y[F..F + 4]
}

// The depth, the key, and the cells below those that are taken and left.
fn stack_stays(x: &Row, y: &Row, takes: usize, leaves: usize) -> bool {
    let (from, to) = (&x[S..S + 16], &y[S..S + 16]);
    if takes < leaves {
        from[takes..15] == to[leaves..] && y[DEPTH] == add(x[DEPTH], 1) && y[KEY] == x[CLOCK]
    } else if leaves < takes {
        let deep = x[DEPTH] != 16;
        from[takes..] == to[leaves..15]
            && y[DEPTH] == difference(x[DEPTH], deep.into())
            && (deep || y[KEY] == x[KEY] && to[15] == 0)
    } else {
        from[takes..] == to[leaves..] && y[DEPTH] == x[DEPTH] && y[KEY] == x[KEY]
    }
}

// An ordinary row takes its operation off the group.
fn group_is_clean(code: u8, x: &Row, y: &Row, behind: u8) -> bool {
    if x[SP] != 1 || x[OX] > 8 || x[ADDR] != y[ADDR] || x[LV] != y[LV] || x[HA] != y[HA] {
        return false;
    }
    let left = difference(x[H], code.into());
    if left != 0 && mul(left, x[W + 3]) != 1 {
        return false;
    }
    let push = code == PUSH;
    if left != 0 || push {
        return is_ordinary(behind)
            && y[SP] == 1
            && mul(128, y[H]) == left
            && y[OX] == x[OX] + 1
            && add(y[GC], push.into()) == x[GC];
    }
    if is_ordinary(behind) {
        return y[SP] == 1 && y[OX] == 0 && add(y[GC], 1) == x[GC];
    }
    y[SP] == 0 && x[GC] == 0 && (behind == END || behind == RESPAN)
}

// A start of a batch.
fn batch_is_clean(x: &Row, y: &Row) -> bool {
    let (h, c, w) = (&x[H..H + 8], &x[C..C + 3], &x[W..W + 4]);
    if (c[0] | c[1] | c[2]) > 1 || c[0] + c[1] + c[2] > 1 {
        return false;
    }
    let (count, witness) = if c[0] == 1 {
        (8, add(add(mul(h[4], w[0]), mul(h[5], w[1])), add(mul(h[6], w[2]), mul(h[7], w[3]))))
    } else if c[1] == 1 {
        (4, add(mul(h[2], w[0]), mul(h[3], w[1])))
    } else if c[2] == 1 {
        (2, mul(h[1], w[0]))
    } else {
        (1, 1)
    };
    witness == 1
        && h[count..].iter().all(|position| *position == 0)
        && y[SP] == 1
        && y[H] == h[0]
        && y[GC] == count as u64 - 1
        && y[OX] == 0
}

// The stack behind an ordinary operation.
fn step_is_clean(code: u8, x: &Row, y: &Row) -> bool {
    let (takes, leaves) = moved(code);
    stack_stays(x, y, takes, leaves) && top_is_clean(code, x, y)
}

// The cells that it leaves.
fn top_is_clean(code: u8, x: &Row, y: &Row) -> bool {
    let from: &[u64; 16] = x[S..S + 16].try_into().expect("cells");
    let to: &[u64; 16] = y[S..S + 16].try_into().expect("cells");
    let [s0, s1, s2, ..] = *from;
    let top = to[0];
    match code {
        SWAP => top == s1 && to[1] == s0,
        MOVUP2..=MOVDN8 if code % 2 == 0 => top == from[turned(code)] && to[1..=turned(code)] == from[..turned(code)],
        MOVUP2..=MOVDN8 => to[turned(code)] == s0 && to[..turned(code)] == from[1..=turned(code)],
        SWAPW..=SWAPW3 => words_are_swapped(usize::from(code - SWAPW + 1), from, to),
        SWAPDW => to[..8] == from[8..] && to[8..] == from[..8],
        DUP0..=DUP15 => top == from[copied(code)],
        EQZ => add(top, mul(s0, x[W])) == 1 && mul(s0, top) == 0,
        NEG => add(top, s0) == 0,
        INVERT => mul(s0, top) == 1,
        INCR => top == add(s0, 1),
        NOT => s0 <= 1 && top == 1 - s0,
        FMPADD => top == add(s0, x[FMP]),
        CALLER => x[SYS] == 1 && (0..4).all(|j| to[j] == x[F + 3 - j]),
        ASSERT => s0 == 1,
        EQ => add(top, mul(difference(s0, s1), x[W])) == 1 && mul(difference(s0, s1), top) == 0,
        ADD => top == add(s0, s1),
        MUL => top == mul(s0, s1),
        AND => (s0 | s1) <= 1 && top == s0 & s1,
        OR => (s0 | s1) <= 1 && top == s0 | s1,
        CSWAP => s0 <= 1 && if s0 == 1 { top == s2 && to[1] == s1 } else { top == s1 && to[1] == s2 },
        CSWAPW => s0 <= 1 && if s0 == 1 { to[..4] == from[5..9] && to[4..8] == from[1..5] } else { to[..8] == from[1..9] },
        PAD => top == 0,
        SDEPTH => top == x[DEPTH],
        CLK => top == x[CLOCK],
        U32SPLIT | U32ADD..=U32ASSERT2 | U32ADD3 | U32MADD => numbers_are_clean(code, x, from, to),
        _ => true,
    }
}

// The top word is exchanged with another one.
fn words_are_swapped(other: usize, from: &[u64; 16], to: &[u64; 16]) -> bool {
    (0..4).all(|word| {
        let place = if word == 0 {
            other
        } else if word == other {
            0
        } else {
            word
        };
        to[4 * word..4 * word + 4] == from[4 * place..4 * place + 4]
    })
}

// Numbers of 32 bits by their limbs.
fn numbers_are_clean(code: u8, x: &Row, from: &[u64; 16], to: &[u64; 16]) -> bool {
    let limbs = |j: usize| add(x[T + j], mul(65536, x[T + j + 1]));
    let [s0, s1, s2, ..] = *from;
    let [high, low, ..] = *to;
    if code == U32SPLIT {
        return low == limbs(0) && high == limbs(2) && is_pair(s0, high, low) && is_reduced(x, high, low);
    }
    if s0 != limbs(0) || s1 != limbs(2) {
        return false;
    }
    match code {
        U32ASSERT2 => high == s0 && low == s1,
        U32ADD => low == limbs(4) && high == x[T + 6] && is_pair(add(s0, s1), high, low),
        U32SUB => low == limbs(4) && high <= 1 && add(s1, high << 32) == add(s0, low),
        U32MUL => low == limbs(4) && high == limbs(6) && is_pair(mul(s0, s1), high, low) && is_reduced(x, high, low),
        U32DIV => low == limbs(4) && high == limbs(6) && s1 == add(mul(s0, low), high) && s0 == add(add(high, 1), limbs(8)),
        U32ADD3 => s2 == limbs(4) && low == limbs(6) && high == x[T + 8] && is_pair(add(add(s0, s1), s2), high, low),
        _ => {
            s2 == limbs(4)
                && low == limbs(6)
                && high == limbs(8)
                && is_pair(add(mul(s0, s1), s2), high, low)
                && is_reduced(x, high, low)
        }
    }
}

fn is_pair(number: u64, high: u64, low: u64) -> bool {
    number == add(low, mul(1 << 32, high))
}

// The two words are no number of p and more.
fn is_reduced(x: &Row, high: u64, low: u64) -> bool {
    low == 0 || mul(difference(0xffff_ffff, high), x[W]) == 1
}

pub fn range_is_clean(i: usize, x: &[u64; 2], next: Option<&[u64; 2]>) -> bool {
    (i > 0 || x[1] == 0)
        && match next {
            Some(y) => [0, 1, 3, 9, 27, 81, 243, 729, 2187].contains(&difference(y[1], x[1])),
            None => x[1] == 65535,
        }
}

pub fn hasher_is_clean(claim: &Claim, i: usize, x: &[u64; 15], next: Option<&[u64; 15]>) -> bool {
    let k = i % 8;
    let [mode, cont, more, ..] = *x;
    if (mode | cont | more) > 1 || mode == 1 && cont + more > 0 || i == 0 && cont != 0 {
        return false;
    }
    if k == 0 && mode == 0 && cont == 0 && (x[3] != 0 || x[5] != 0 || x[6] != 0) {
        return false;
    }
    let Some(y) = next else {
        return more == 0;
    };
    if k == 7 {
        return y[1] == more && (more == 0 || y[3..7] == x[3..7]);
    }
    let (state, later): (&State, &State) = (x[3..].try_into().expect("a state"), y[3..].try_into().expect("a state"));
    more == 0 && y[0] == mode && y[1] == cont && seventh_powers(later) == before_roots(claim.params, k, state)
}

pub fn bitwise_is_clean(i: usize, x: &[u64; 12], next: Option<&[u64; 12]>) -> bool {
    let k = i % 8;
    let bits = x[3..11].iter().fold(x[0], |all, bit| all | bit);
    if bits > 1 || k == 0 && [x[1], x[2], x[11]] != four_bits(x) {
        return false;
    }
    let Some(y) = next.filter(|_| k < 7) else {
        return true;
    };
    // what is no bit is refused at its own row, but its row's four bits count here
    if y[3..11].iter().any(|bit| *bit > 1) || y[0] != x[0] {
        return false;
    }
    let [a, b, z] = four_bits(y);
    y[1] == add(mul(16, x[1]), a) && y[2] == add(mul(16, x[2]), b) && y[11] == add(mul(16, x[11]), z)
}

// The numbers of four bits that a row of bits adds.
fn four_bits(row: &[u64; 12]) -> [u64; 3] {
    let number = |from: usize| row[from] | row[from + 1] << 1 | row[from + 2] << 2 | row[from + 3] << 3;
    let (a, b) = (number(3), number(7));
    [a, b, if row[0] == 1 { a ^ b } else { a & b }]
}

pub fn memory_is_clean(i: usize, x: &[u64; 14], next: Option<&[u64; 14]>) -> bool {
    let [kind, ctx, addr, clk, ..] = *x;
    let (n0, n1) = (x[8], x[9]);
    if kind > 2 || (n0 | n1) > 1 || n0 + n1 > 1 || addr != add(x[12], mul(65536, x[13])) {
        return false;
    }
    if i == 0 && (n0 != 1 || !word_is_kept(kind, &x[4..8], &[0; 4])) {
        return false;
    }
    let Some(y) = next else {
        return true;
    };
    let step = add(add(y[10], mul(65536, y[11])), 1);
    let in_order = match (y[8], y[9]) {
        (1, 0) => y[1] == add(ctx, step),
        (0, 1) => y[1] == ctx && y[2] == add(addr, step),
        (0, 0) => y[1] == ctx && y[2] == addr && y[3] == add(clk, step),
        _ => false,
    };
    let before = if y[8] + y[9] == 0 { &x[4..8] } else { &[0; 4] };
    in_order && y[0] <= 2 && word_is_kept(y[0], &y[4..8], before)
}

// What is not written is as it was.
fn word_is_kept(kind: u64, word: &[u64], before: &[u64]) -> bool {
    match kind {
        0 => word == before,
        1 => true,
        _ => word[1..] == before[1..],
    }
}
