//! The operations of each instruction, as the tables of docs/ASSEMBLY.md list them.
use super::instructions::{Instruction, Name};
use crate::batches::Item;
use crate::operations::*;

const MOVUP3: u8 = move_up(3);
const MOVUP4: u8 = move_up(4);
const MOVUP8: u8 = move_up(8);
const MOVDN2: u8 = move_down(2);
const DUP1: u8 = copy_of(1);

/// a < b of the two elements on top, by their halves.
const LT: [u8; 21] = [
    U32SPLIT, MOVUP2, U32SPLIT, MOVUP3, MOVUP2, SWAP, U32SUB, SWAP, DROP, MOVDN2, DUP1, DUP1, EQ, MOVUP3, AND, MOVDN2, SWAP,
    U32SUB, SWAP, DROP, OR,
];

/// Adds an instruction's operations.
pub fn expand(instruction: &Instruction, items: &mut Vec<Item>) {
    let Instruction { name, numbers } = instruction;
    let mut out = Writer { items };
    if is_with_numbers(*name) {
        return with_numbers(*name, numbers, &mut out);
    }
    // what may stand behind a name is pushed in front of its operations
    numbers.iter().for_each(|number| out.push(*number));
    out.codes(codes(*name));
}

/// What leaves a number on top.
pub fn literal(number: u64) -> Item {
    Item { code: if number == 0 { PAD } else { PUSH }, immediate: number }
}

struct Writer<'a> {
    items: &'a mut Vec<Item>,
}

impl Writer<'_> {
    fn codes(&mut self, codes: &[u8]) {
        self.items.extend(codes.iter().map(|code| Item { code: *code, immediate: 0 }));
    }

    fn push(&mut self, number: u64) {
        self.items.push(literal(number));
    }
}

// Whether the operations depend on the numbers in another way than that they are pushed first, or push others.
fn is_with_numbers(name: Name) -> bool {
    use Name::*;
    matches!(
        name,
        Exp | Pow2
            | IsOdd
            | U32Assert
            | U32CheckedNot
            | U32CheckedShl
            | U32CheckedShr
            | U32CheckedRotl
            | U32CheckedRotr
            | Dup
            | DupW
            | MovUp
            | MovDn
            | Swap
            | SwapW
            | MovUpW
            | MovDnW
            | AdvPush
    )
}

fn with_numbers(name: Name, numbers: &[u64], out: &mut Writer) {
    let first = numbers.first().copied();
    let cell = first.unwrap_or(0) as u8;
    match name {
        Name::Exp => power(first.unwrap_or(0), out),
        Name::Pow2 => power_of_two(out),
        Name::IsOdd => {
            out.codes(&[U32SPLIT, DROP]);
            out.push(2);
            out.codes(&[U32DIV, SWAP, DROP]);
        }
        Name::U32Assert if first.is_some() => out.codes(&[U32ASSERT2]),
        Name::U32Assert => out.codes(&[PAD, U32ASSERT2, DROP]),
        Name::U32CheckedNot => {
            out.push(u32::MAX.into());
            out.codes(&[U32ASSERT2, SWAP, NEG, ADD]);
        }
        Name::U32CheckedRotr => shifted(&[U32MUL, ADD], first.map(|amount| (32 - amount) % 32), out),
        Name::U32CheckedRotl => shifted(&[U32MUL, ADD], first, out),
        Name::U32CheckedShl => shifted(&[U32MUL, DROP], first, out),
        Name::U32CheckedShr => shifted(&[U32DIV, DROP], first, out),
        Name::Dup if cell < 8 || cell % 2 == 1 => out.codes(&[copy_of(cell)]),
        Name::Dup => out.codes(&[PAD, copy_of(cell + 1), ADD]),
        Name::DupW => out.codes(&[copy_of(4 * cell + 3); 4]),
        Name::MovUp => moved_up(cell, out),
        Name::MovDn => moved_down(cell, out),
        Name::Swap => exchanged(cell.max(1), out),
        Name::AdvPush => (0..cell).for_each(|_| out.codes(&[ADVPOP])),
        _ => out.codes(words(name, cell)),
    }
}

// The operations that move words.
fn words(name: Name, word: u8) -> &'static [u8] {
    match (name, word) {
        (Name::SwapW, 0 | 1) => &[SWAPW],
        (Name::SwapW, 2) => &[SWAPW2],
        (Name::SwapW, _) => &[SWAPW3],
        (Name::MovUpW, 2) => &[SWAPW, SWAPW2],
        (Name::MovUpW, _) => &[SWAPW, SWAPW2, SWAPW3],
        (Name::MovDnW, 2) => &[SWAPW2, SWAPW],
        _ => &[SWAPW3, SWAPW2, SWAPW],
    }
}

// What is done with a power of two, by the amount that stands behind the name or else on the stack.
fn shifted(codes: &[u8], amount: Option<u64>, out: &mut Writer) {
    match amount {
        Some(amount) => out.push(1 << amount),
        None => power_of_two(out),
    }
    out.codes(codes);
}

fn power(exponent: u64, out: &mut Writer) {
    out.push(1);
    for place in (0..64 - exponent.leading_zeros()).rev() {
        out.codes(&[DUP0, MUL]);
        if exponent >> place & 1 == 1 {
            out.codes(&[DUP1, MUL]);
        }
    }
    out.codes(&[SWAP, DROP]);
}

fn power_of_two(out: &mut Writer) {
    out.push(1);
    out.codes(&[SWAP]);
    for i in 0..6 {
        out.push(2);
        out.codes(&[U32DIV]);
        out.push(((1u128 << (1 << i)) - 1) as u64);
        out.codes(&[MUL, INCR, MOVUP2, MUL, SWAP]);
    }
    out.codes(&[EQZ, ASSERT]);
}

fn moved_up(cell: u8, out: &mut Writer) {
    match cell {
        ..=8 => out.codes(&[move_up(cell)]),
        _ => out.codes(&[SWAPDW, move_up(cell - 8), SWAPDW, MOVUP8]),
    }
}

fn moved_down(cell: u8, out: &mut Writer) {
    match cell {
        ..=8 => out.codes(&[move_down(cell)]),
        _ => out.codes(&[MOVDN8, SWAPDW, move_down(cell - 8), SWAPDW]),
    }
}

fn exchanged(cell: u8, out: &mut Writer) {
    moved_down(cell, out);
    if cell > 1 {
        moved_up(cell - 1, out);
    }
}

// The operations behind what is pushed.
fn codes(name: Name) -> &'static [u8] {
    use Name::*;
    match name {
        Add => &[ADD],
        Sub => &[NEG, ADD],
        Mul => &[MUL],
        Div => &[INVERT, MUL],
        Neg => &[NEG],
        Inv => &[INVERT],
        Not => &[NOT],
        And => &[AND],
        Or => &[OR],
        Xor => &[DUP1, DUP1, OR, MOVDN2, AND, NOT, AND],
        Eq => &[EQ],
        Neq => &[EQ, NOT],
        Lt => &LT,
        Gt => &const { joined::<22>(&[&[SWAP], &LT]) },
        Lte => &const { joined::<23>(&[&[SWAP], &LT, &[NOT]]) },
        Gte => &const { joined::<22>(&[&LT, &[NOT]]) },
        EqW => {
            &const {
                joined::<15>(&[
                    &[DUP7, copy_of(4), EQ, DUP7, copy_of(4), EQ, DUP7, copy_of(4), EQ, DUP7, copy_of(4), EQ],
                    &[AND; 3],
                ])
            }
        }
        Assert => &[ASSERT],
        AssertZ => &[EQZ, ASSERT],
        AssertEq => &[EQ, ASSERT],
        AssertEqW => &[MOVUP4, EQ, ASSERT, MOVUP3, EQ, ASSERT, MOVUP2, EQ, ASSERT, EQ, ASSERT],
        _ => numbers_codes(name),
    }
}

// The same of the instructions on numbers of 32 bits.
fn numbers_codes(name: Name) -> &'static [u8] {
    use Name::*;
    match name {
        U32Test => &[DUP0, U32SPLIT, SWAP, DROP, EQZ],
        U32AssertW => &[U32ASSERT2, MOVUP3, MOVUP3, U32ASSERT2, MOVUP3, MOVUP3],
        U32Cast => &[U32SPLIT, DROP],
        U32Split => &[U32SPLIT],
        U32CheckedAdd => &[U32ADD, EQZ, ASSERT],
        U32CheckedSub => &[U32SUB, EQZ, ASSERT],
        U32CheckedMul => &[U32MUL, EQZ, ASSERT],
        U32WrappingAdd => &[U32ADD, DROP],
        U32WrappingSub => &[U32SUB, DROP],
        U32WrappingMul => &[U32MUL, DROP],
        U32OverflowingAdd => &[U32ADD],
        U32OverflowingSub => &[U32SUB],
        U32OverflowingMul => &[U32MUL],
        U32OverflowingAdd3 => &[U32ADD3],
        U32WrappingAdd3 => &[U32ADD3, DROP],
        U32OverflowingMadd => &[U32MADD],
        U32WrappingMadd => &[U32MADD, DROP],
        U32CheckedDiv => &[U32DIV, DROP],
        U32CheckedMod => &[U32DIV, SWAP, DROP],
        U32CheckedDivMod => &[U32DIV],
        U32CheckedAnd => &[U32AND],
        U32CheckedXor => &[U32XOR],
        U32CheckedOr => &[DUP1, DUP1, U32AND, NEG, ADD, ADD],
        U32CheckedLt => &[U32SUB, SWAP, DROP],
        U32CheckedGte => &[U32SUB, SWAP, DROP, NOT],
        U32CheckedGt => &[SWAP, U32SUB, SWAP, DROP],
        U32CheckedLte => &[SWAP, U32SUB, SWAP, DROP, NOT],
        U32CheckedMax => &[DUP1, DUP1, U32SUB, SWAP, DROP, CSWAP, DROP],
        U32CheckedMin => &[DUP1, DUP1, U32SUB, SWAP, DROP, CSWAP, SWAP, DROP],
        _ => stack_codes(name),
    }
}

// The same of the instructions on the stack, the state, advice, memory and hashes.
fn stack_codes(name: Name) -> &'static [u8] {
    use Name::*;
    match name {
        Drop => &[DROP],
        DropW => &[DROP; 4],
        PadW => &[PAD; 4],
        SwapDW => &[SWAPDW],
        CSwap => &[CSWAP],
        CSwapW => &[CSWAPW],
        CDrop => &[CSWAP, DROP],
        CDropW => &[CSWAPW, DROP, DROP, DROP, DROP],
        SDepth => &[SDEPTH],
        Caller => &[CALLER],
        Clk => &[CLK],
        AdvLoadW => &[ADVPOPW],
        MemLoad => &[MLOAD],
        MemLoadW => &[MLOADW],
        MemStore => &[MSTORE, DROP],
        MemStoreW => &[MSTOREW],
        LocAddr => &[FMPADD],
        LocLoad => &[FMPADD, MLOAD],
        LocLoadW => &[FMPADD, MLOADW],
        LocStore => &[FMPADD, MSTORE, DROP],
        LocStoreW => &[FMPADD, MSTOREW],
        HPerm => &[HPERM],
        HMerge => &[PAD, PAD, PAD, PAD, SWAPW2, SWAPW, HPERM, DROP, DROP, DROP, DROP, SWAPW, DROP, DROP, DROP, DROP],
        _ => &[],
    }
}

// Several lists of codes as one of N.
const fn joined<const N: usize>(parts: &[&[u8]]) -> [u8; N] {
    let mut all = [0; N];
    let (mut part, mut at) = (0, 0);
    while part < parts.len() {
        let mut i = 0;
        while i < parts[part].len() {
            all[at] = parts[part][i];
            (at, i) = (at + 1, i + 1);
        }
        part += 1;
    }
    assert!(at == N);
    all
}
