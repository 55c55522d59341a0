//! The library: procedures on unsigned numbers of 64 bits that every program may use and no kernel. A number is two limbs, the high one
//! on top, and each procedure takes b on top of a.
use super::linking::read;
use super::syntax::{Kind, Source};

/// The carry, and a + b modulo 2^64.
macro_rules! adding {
    () => {
        " swap movup.3 u32overflowing_add movup.3 movup.3 u32overflowing_add3"
    };
}

/// The borrow, and a - b modulo 2^64.
macro_rules! subtracting {
    () => {
        " movup.3 movup.2 u32overflowing_sub movup.3 movup.3 u32overflowing_sub swap movup.2 u32overflowing_sub movup.2 or"
    };
}

/// The borrow of a - b alone, which is 1 where a < b.
macro_rules! comparing {
    () => {
        concat!(subtracting!(), " movdn.2 drop drop")
    };
}

const PROCEDURES: &str = concat!(
    concat!("proc.u64_overflowing_add", adding!(), " end "),
    concat!("proc.u64_wrapping_add", adding!(), " drop end "),
    concat!("proc.u64_checked_add", adding!(), " assertz end "),
    concat!("proc.u64_overflowing_sub", subtracting!(), " end "),
    concat!("proc.u64_wrapping_sub", subtracting!(), " drop end "),
    concat!("proc.u64_checked_sub", subtracting!(), " assertz end "),
    concat!("proc.u64_lt", comparing!(), " end "),
    concat!("proc.u64_gte", comparing!(), " not end "),
    concat!("proc.u64_gt movup.3 movup.3", comparing!(), " end "),
    concat!("proc.u64_lte movup.3 movup.3", comparing!(), " not end "),
    "proc.u64_eq u32assertw movup.2 eq movdn.2 eq and end",
);

/// Puts behind a program's own procedures those of the library whose names it does not define. The main one stays the last.
pub fn add_library(program: &mut Source) {
    // a list of procedures without a main one is what a kernel's source is
    let library = read(PROCEDURES.as_bytes(), true).expect("the library's source").procedures;
    let own = program.procedures.len() - 1;
    let is_own = |name: &str| program.procedures.iter().any(|it| it.kind != Kind::Main && it.name == name);
    let added: Vec<_> = library.into_iter().filter(|procedure| !is_own(procedure.name)).collect();
    program.procedures.splice(own..own, added);
}
