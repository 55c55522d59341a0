#!/bin/bash
# Times the lexer and the parser on two sources of about a million bytes, one of instructions and one of constants with
# their uses, and prints for each the least time of both in microseconds and the bytes a second. The program over masm_lex
# and masm_parse is made in a temporary folder.
set -e
top=$(cd "$(dirname "$0")/.." && pwd)
work=$(mktemp -d)
trap 'rm -rf "$work"' EXIT
# shellcheck source=bench/crates.sh
. "$top/bench/crates.sh"
copy_crates masm_lex masm_parse vm_field
mkdir -p "$work/crates/bench_parse/src"
echo 'bench_parse: masm_lex masm_parse vm_field' >>"$work/crates.txt"
cat >"$work/crates/bench_parse/src/main.rt" <<'END'
//! Times the lexer and the parser.
#![tactic(auto)]

use masm_lex::{MAX_SOURCE, lex};
use masm_parse::parse;
use std::alloc::{AllocError, Global};
use std::io;
use std::time::Instant;

fn append(source: &mut Vec<u8>, text: &[u8]) -> Result<(), AllocError> {
    for byte in text {
        source.push(*byte)?;
    }
    Ok(())
}

// A program of 990,010 bytes: one long body of instructions, with and without numbers.
fn instructions(alloc: Global) -> Result<Vec<u8>, AllocError> {
    let mut source = Vec::new(alloc);
    append(&mut source, b"begin\n")?;
    for _ in 0..30000 {
        append(&mut source, b"push.17 add dup.3 u32checked_add\n")?;
    }
    append(&mut source, b"end\n")?;
    Ok(source)
}

fn letter(number: u32) -> u8 {
    b'A' + (number % 26) as u8
}

// A name of its own for each number below 26^4.
fn name(number: u32) -> [u8; 4] {
    [
        letter(number / 17576),
        letter(number / 676),
        letter(number / 26),
        letter(number),
    ]
}

// A program of 987,010 bytes: 38,000 constants, and 92,800 uses of the last of them.
fn constants(alloc: Global) -> Result<Vec<u8>, AllocError> {
    let mut source = Vec::new(alloc);
    for number in 0..38000 {
        append(&mut source, b"const.")?;
        append(&mut source, &name(number))?;
        append(&mut source, b"=1\n")?;
    }
    append(&mut source, b"begin\n")?;
    for _ in 0..5800 {
        append(&mut source, b"push")?;
        for _ in 0..16 {
            append(&mut source, b".")?;
            append(&mut source, &name(37999))?;
        }
        append(&mut source, b"\n")?;
    }
    append(&mut source, b"end\n")?;
    Ok(source)
}

// Prints the source's title and length, how many tokens it has, and the times of both steps.
fn time(rt: &HostRuntime, title: &str, source: &[u8]) -> io::Result<()> {
    let alloc = rt.alloc();
    if source.len() > MAX_SOURCE {
        return println!(rt; "too long");
    }
    let start = Instant::now(rt)?;
    let Ok(tokens) = lex(alloc, source) else {
        return println!(rt; "no tokens");
    };
    let lexed = start.elapsed(rt)?.as_micros();
    let count = tokens.len();
    let start = Instant::now(rt)?;
    let read = parse(alloc, source, &tokens, false);
    let parsed = start.elapsed(rt)?.as_micros();
    let length = source.len();
    match read {
        Ok(_) => println!(rt; "{title} {length} {count} {lexed} {parsed}"),
        Err(_) => println!(rt; "refused"),
    }
}

fn main(rt: HostRuntime) -> io::Result<()> {
    let alloc = rt.alloc();
    let (Ok(instructions), Ok(constants)) = (instructions(alloc), constants(alloc)) else {
        return println!(rt; "out of memory");
    };
    time(&rt, "instructions", instructions.as_slice())?;
    time(&rt, "constants", constants.as_slice())
}
END
cd "$work/crates/bench_parse"
rt run >"$work/log" 2>&1 || { cat "$work/log"; exit 1; }
for _ in 1 2 3 4 5; do
    out/bench_parse >>"$work/times"
done
awk '{
    if (NF != 5) { print "a source was not read: " $0; failed = 1; exit 1 }
    title = $1
    if (!(title in bytes) || $4 < lexed[title]) lexed[title] = $4
    if (!(title in bytes) || $5 < parsed[title]) parsed[title] = $5
    bytes[title] = $2; tokens[title] = $3
}
END {
    if (failed) exit 1
    for (title in bytes)
        printf "%s: %d bytes, %d tokens: lex %d us (%.1f MB/s), parse %d us (%.1f MB/s)\n", title, bytes[title],
            tokens[title], lexed[title], bytes[title] / lexed[title], parsed[title], bytes[title] / parsed[title]
}' "$work/times"
