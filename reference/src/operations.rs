//! The operations of the machine by their codes (docs/MACHINE.md).

pub const NOOP: u8 = 0;
pub const EQZ: u8 = 1;
pub const NEG: u8 = 2;
pub const INVERT: u8 = 3;
pub const INCR: u8 = 4;
pub const NOT: u8 = 5;
pub const FMPADD: u8 = 6;
pub const MLOAD: u8 = 7;
pub const SWAP: u8 = 8;
pub const CALLER: u8 = 9;
pub const MOVUP2: u8 = 10;
pub const MOVDN8: u8 = 23;
pub const SWAPW: u8 = 24;
pub const SWAPW2: u8 = 25;
pub const SWAPW3: u8 = 26;
pub const SWAPDW: u8 = 27;
pub const ADVPOPW: u8 = 28;
pub const HPERM: u8 = 29;
pub const U32ADD: u8 = 30;
pub const U32SUB: u8 = 31;
pub const U32MUL: u8 = 32;
pub const U32DIV: u8 = 33;
pub const U32ASSERT2: u8 = 34;
pub const ASSERT: u8 = 35;
pub const EQ: u8 = 36;
pub const ADD: u8 = 37;
pub const MUL: u8 = 38;
pub const AND: u8 = 39;
pub const OR: u8 = 40;
pub const U32AND: u8 = 41;
pub const U32XOR: u8 = 42;
pub const DROP: u8 = 43;
pub const CSWAP: u8 = 44;
pub const CSWAPW: u8 = 45;
pub const MLOADW: u8 = 46;
pub const MSTORE: u8 = 47;
pub const MSTOREW: u8 = 48;
pub const FMPUPDATE: u8 = 49;
pub const U32ADD3: u8 = 50;
pub const U32MADD: u8 = 51;
pub const PAD: u8 = 52;
pub const DUP0: u8 = 53;
pub const DUP7: u8 = 60;
pub const DUP9: u8 = 61;
pub const DUP15: u8 = 64;
pub const ADVPOP: u8 = 65;
pub const SDEPTH: u8 = 66;
pub const CLK: u8 = 67;
pub const U32SPLIT: u8 = 68;
pub const PUSH: u8 = 69;
pub const JOIN: u8 = 70;
pub const SPLIT: u8 = 71;
pub const LOOP: u8 = 72;
pub const SPAN: u8 = 73;
pub const CALL: u8 = 74;
pub const SYSCALL: u8 = 75;
pub const END: u8 = 76;
pub const REPEAT: u8 = 77;
pub const RESPAN: u8 = 78;
pub const HALT: u8 = 79;
pub const DYN: u8 = 80;

pub fn is_ordinary(code: u8) -> bool {
    code <= PUSH
}

pub fn is_start(code: u8) -> bool {
    matches!(code, JOIN..=SYSCALL | DYN)
}

/// How many cells an operation takes from the top, and how many it leaves in their place. END's are not here.
pub fn moved(code: u8) -> (usize, usize) {
    match code {
        EQZ..=MLOAD => (1, 1),
        SWAP | U32ADD..=U32ASSERT2 => (2, 2),
        CALLER | ADVPOPW => (4, 4),
        MOVUP2..=MOVDN8 => (turned(code) + 1, turned(code) + 1),
        SWAPW..=SWAPDW => (16, 16),
        HPERM => (12, 12),
        EQ..=U32XOR => (2, 1),
        ASSERT | DROP | MSTORE..=FMPUPDATE | SPLIT | LOOP | REPEAT => (1, 0),
        CSWAP | U32ADD3 | U32MADD => (3, 2),
        CSWAPW => (9, 8),
        MLOADW => (5, 4),
        PAD..=CLK | PUSH => (0, 1),
        U32SPLIT => (1, 2),
        _ => (0, 0),
    }
}

/// How far a MOVUP or a MOVDN goes.
pub fn turned(code: u8) -> usize {
    usize::from(code - 6) / 2
}

/// The MOVUP that moves a cell of 1 to 8 to the top.
pub const fn move_up(cell: u8) -> u8 {
    if cell == 1 { SWAP } else { 6 + 2 * cell }
}

/// The MOVDN that moves the top to a cell of 1 to 8.
pub const fn move_down(cell: u8) -> u8 {
    if cell == 1 { SWAP } else { 7 + 2 * cell }
}

/// The cell that a DUP copies.
pub fn copied(code: u8) -> usize {
    usize::from(if code <= DUP7 { code - DUP0 } else { 2 * (code - DUP9) + 9 })
}

/// The DUP that copies a cell: one of 0 to 7, or 9, 11, 13 or 15.
pub const fn copy_of(cell: u8) -> u8 {
    if cell <= 7 { DUP0 + cell } else { DUP9 + (cell - 9) / 2 }
}

/// How many limbs of 16 bits the row of an operation shows.
pub fn limbs(code: u8) -> usize {
    match code {
        U32SPLIT | U32ASSERT2 => 4,
        U32SUB => 6,
        U32ADD => 7,
        U32MUL => 8,
        U32ADD3 => 9,
        U32MADD | U32DIV => 10,
        _ => 0,
    }
}
