//! The instructions: their names, and which numbers may stand behind each.
use super::numbers::{is_constant_name, number};
use super::refusal::Cause;
use crate::field::PRIME;
use std::collections::HashMap;
use std::ops::RangeInclusive;

macro_rules! instructions {
    ($($name:ident $text:literal,)*) => {
        #[derive(Clone, Copy, Debug, PartialEq, Eq)]
        pub enum Name {
            $($name,)*
        }

        pub fn named(text: &str) -> Option<Name> {
            match text {
                $($text => Some(Name::$name),)*
                _ => None,
            }
        }
    };
}

instructions! {
    Add "add", Sub "sub", Mul "mul", Div "div", Neg "neg", Inv "inv", Exp "exp", Pow2 "pow2",
    Not "not", And "and", Or "or", Xor "xor", Eq "eq", Neq "neq", Lt "lt", Gt "gt", Lte "lte", Gte "gte", IsOdd "is_odd", EqW "eqw",
    Assert "assert", AssertZ "assertz", AssertEq "assert_eq", AssertEqW "assert_eqw",
    U32Test "u32test", U32Assert "u32assert", U32AssertW "u32assertw", U32Cast "u32cast", U32Split "u32split",
    U32CheckedAdd "u32checked_add", U32CheckedSub "u32checked_sub", U32CheckedMul "u32checked_mul",
    U32WrappingAdd "u32wrapping_add", U32WrappingSub "u32wrapping_sub", U32WrappingMul "u32wrapping_mul",
    U32OverflowingAdd "u32overflowing_add", U32OverflowingSub "u32overflowing_sub", U32OverflowingMul "u32overflowing_mul",
    U32OverflowingAdd3 "u32overflowing_add3", U32WrappingAdd3 "u32wrapping_add3",
    U32OverflowingMadd "u32overflowing_madd", U32WrappingMadd "u32wrapping_madd",
    U32CheckedDiv "u32checked_div", U32CheckedMod "u32checked_mod", U32CheckedDivMod "u32checked_divmod",
    U32CheckedAnd "u32checked_and", U32CheckedXor "u32checked_xor", U32CheckedOr "u32checked_or", U32CheckedNot "u32checked_not",
    U32CheckedShl "u32checked_shl", U32CheckedShr "u32checked_shr",
    U32CheckedRotl "u32checked_rotl", U32CheckedRotr "u32checked_rotr",
    U32CheckedLt "u32checked_lt", U32CheckedGte "u32checked_gte", U32CheckedGt "u32checked_gt", U32CheckedLte "u32checked_lte",
    U32CheckedMax "u32checked_max", U32CheckedMin "u32checked_min",
    Push "push", Drop "drop", DropW "dropw", PadW "padw", Dup "dup", DupW "dupw", MovUp "movup", MovDn "movdn",
    Swap "swap", SwapW "swapw", SwapDW "swapdw", MovUpW "movupw", MovDnW "movdnw",
    CSwap "cswap", CSwapW "cswapw", CDrop "cdrop", CDropW "cdropw",
    SDepth "sdepth", Caller "caller", Clk "clk", AdvPush "adv_push", AdvLoadW "adv_loadw",
    MemLoad "mem_load", MemLoadW "mem_loadw", MemStore "mem_store", MemStoreW "mem_storew",
    LocAddr "locaddr", LocLoad "loc_load", LocLoadW "loc_loadw", LocStore "loc_store", LocStoreW "loc_storew",
    HPerm "hperm", HMerge "hmerge",
}

/// An instruction with its numbers. A local's number is the element that leads from the frame pointer to it.
pub struct Instruction {
    pub name: Name,
    pub numbers: Vec<u64>,
}

/// Which numbers may stand behind a name: how many, from where to where, and whether constants may stand for them.
struct Form {
    count: RangeInclusive<usize>,
    range: RangeInclusive<u128>,
    takes_constants: bool,
}

const LAST_ELEMENT: u128 = PRIME as u128 - 1;
const LAST_U32: u128 = u32::MAX as u128;

// The form of an instruction's numbers, but for locals, where the range is of their own.
fn form(name: Name) -> Form {
    use Name::*;
    let free = |count, last: u128| Form { count, range: 0..=last, takes_constants: true };
    let fixed = |count, range| Form { count, range, takes_constants: false };
    match name {
        Add | Sub | Mul | Div | Eq | Neq => free(0..=1, LAST_ELEMENT),
        Exp => free(1..=1, LAST_ELEMENT),
        Push => free(1..=16, LAST_ELEMENT),
        U32CheckedAdd | U32CheckedSub | U32CheckedMul | U32WrappingAdd | U32WrappingSub | U32WrappingMul => free(0..=1, LAST_U32),
        U32OverflowingAdd | U32OverflowingSub | U32OverflowingMul => free(0..=1, LAST_U32),
        U32CheckedDiv | U32CheckedMod | U32CheckedDivMod => free(0..=1, LAST_U32),
        MemLoad | MemLoadW | MemStore | MemStoreW => free(0..=1, LAST_U32),
        U32CheckedShl | U32CheckedShr | U32CheckedRotl => free(0..=1, 31),
        U32CheckedRotr => free(1..=1, 31),
        LocAddr | LocLoad | LocLoadW | LocStore | LocStoreW => free(1..=1, LAST_ELEMENT),
        U32Assert => fixed(0..=1, 2..=2),
        Dup => fixed(0..=1, 0..=15),
        DupW => fixed(0..=1, 0..=3),
        MovUp | MovDn => fixed(1..=1, 2..=15),
        Swap => fixed(0..=1, 1..=15),
        SwapW => fixed(0..=1, 1..=3),
        MovUpW | MovDnW => fixed(1..=1, 2..=3),
        AdvPush => fixed(1..=1, 1..=16),
        _ => fixed(0..=0, 0..=0),
    }
}

fn is_of_locals(name: Name) -> bool {
    matches!(name, Name::LocAddr | Name::LocLoad | Name::LocLoadW | Name::LocStore | Name::LocStoreW)
}

/// The instruction of a name and the parts behind it, in a procedure with so many locals.
pub fn instruction(name: Name, parts: &[&str], constants: &HashMap<&str, u64>, locals: u64) -> Result<Instruction, Cause> {
    let Form { count, range, takes_constants } = form(name);
    if !count.contains(&parts.len()) {
        return Err(Cause::Syntax);
    }
    let value = |part: &&str| if takes_constants { number_or_constant(part, constants) } else { number(part) };
    let values: Option<Vec<u128>> = parts.iter().map(value).collect();
    let values = values.ok_or(Cause::Syntax)?;
    if is_of_locals(name) {
        let is_known = values.iter().all(|value| *value < locals.into());
        let numbers = values.iter().map(|value| PRIME - (locals - *value as u64));
        return if is_known { Ok(Instruction { name, numbers: numbers.collect() }) } else { Err(Cause::LocalsRange) };
    }
    if !values.iter().all(|value| range.contains(value)) {
        return Err(Cause::NumberRange);
    }
    Ok(Instruction { name, numbers: values.into_iter().map(|value| value as u64).collect() })
}

/// A number, or one that a constant stands for.
pub fn number_or_constant(text: &str, constants: &HashMap<&str, u64>) -> Option<u128> {
    number(text).or_else(|| constants.get(text).filter(|_| is_constant_name(text)).map(|value| u128::from(*value)))
}

/// Names that other assemblers have and this one refuses.
pub fn is_unsupported(first: &str) -> bool {
    matches!(
        first,
        "ext2add"
            | "ext2sub"
            | "ext2mul"
            | "ext2div"
            | "ext2neg"
            | "ext2inv"
            | "fri_ext2fold4"
            | "rcomb_base"
            | "mtree_get"
            | "mtree_set"
            | "mtree_merge"
            | "mtree_verify"
            | "mem_stream"
            | "adv_pipe"
            | "dyncall"
            | "breakpoint"
            | "debug"
            | "trace"
            | "emit"
            | "adv"
            | "use"
    )
}
