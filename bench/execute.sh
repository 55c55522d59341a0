#!/bin/bash
# Times the named cases by the processor and by plain Rust (execute.rs over reference/), and prints for each the least time of
# both in microseconds, the nanoseconds a cycle, and the ratio, which is to be at most the first argument. The program over
# the processor is made in a temporary folder. calls.sh and steps.sh name the cases.
set -e
top=$(cd "$(dirname "$0")/.." && pwd)
most=$1
shift
work=$(mktemp -d)
trap 'rm -rf "$work"' EXIT
# shellcheck source=bench/crates.sh
. "$top/bench/crates.sh"
libraries='processor machine_cycles block_tree op_pack perm_memo rpo_hash vm_state vm_ops vm_field'
# shellcheck disable=SC2086
copy_crates $libraries
mkdir -p "$work/crates/bench_execute/src"
echo "bench_execute: $libraries" >>"$work/crates.txt"
cat >"$work/crates/bench_execute/src/main.rt" <<'END'
//! Times runs of programs.
#![tactic(auto)]

use block_tree::{Exports, Program, Tree, are_distinct};
use op_pack::Batches;
use processor::execute;
use rpo_hash::Params;
use std::alloc::Global;
use std::time::Instant;
use std::{env, io};
use vm_field::{Felt, Felts, Memory, Words};
use vm_ops::{Op, opcode};
use vm_state::Inputs;

type Made = Result<Tree, Memory>;

fn felt(number: u64) -> Felt {
    Felt::reduced(u128::from(number))
}

fn constants(from: u64) -> [[Felt; 12]; 7] {
    let mut constants = [[Felt::ZERO; 12]; 7];
    for k in 0..7 {
        for i in 0..12 {
            let number = u128::from(from) + 1000 * k as u128 + i as u128;
            constants[k][i] = Felt::reduced(number);
        }
    }
    constants
}

fn group(ops: &[Op]) -> Felt {
    let mut number: u64 = 0;
    for op in ops.iter().rev() {
        number = number.wrapping_mul(128).wrapping_add(u64::from(opcode(*op)));
    }
    felt(number)
}

// The batch of these elements and zeros.
fn batch(elements: &[Felt]) -> [Felt; 8] {
    let mut batch = [Felt::ZERO; 8];
    for i in 0..8 {
        batch[i] = elements.get(i).copied().unwrap_or(Felt::ZERO);
    }
    batch
}

static MIXED: [Op; 9] = [Op::Pad, Op::Incr, Op::Add, Op::Dup0, Op::Mul, Op::Dup1, Op::Swap, Op::Drop, Op::Incr];
static PUSHING: [Op; 9] = [Op::Push, Op::Add, Op::Dup0, Op::Mul, Op::Swap, Op::Dup1, Op::Add, Op::Swap, Op::MovUp3];
static U32: [Op; 9] = [Op::Pad, Op::Pad, Op::U32Add, Op::Drop, Op::Drop, Op::MovUp3, Op::Swap, Op::Dup0, Op::Drop];
static MEMORY: [Op; 9] = [Op::Dup0, Op::Pad, Op::MStore, Op::Drop, Op::Pad, Op::MLoad, Op::Drop, Op::Swap, Op::Incr];
static SQUARING: [Op; 9] = [Op::Pad, Op::Incr, Op::Add, Op::Dup0, Op::Mul, Op::Dup0, Op::Incr, Op::Swap, Op::Drop];
static COUNTING: [Op; 7] = [Op::Swap, Op::Push, Op::Add, Op::Swap, Op::Dup1, Op::Eqz, Op::Not];
static PADDING: [Op; 9] = [Op::Pad; 9];

fn minus_one() -> Felt {
    Felt::ZERO.sub(Felt::ONE)
}

// A span of so many copies of a batch, and then of another.
fn span(alloc: Global, first: [Felt; 8], copies: usize, last: [Felt; 8]) -> Made {
    let mut batches = if copies == 0 {
        return Ok(Tree::Span(Batches::of(alloc, last)?));
    } else {
        Batches::of(alloc, first)?
    };
    for _ in 1..copies {
        batches.push(first)?;
    }
    batches.push(last)?;
    Ok(Tree::Span(batches))
}

fn join(alloc: Global, first: Made, second: Made) -> Made {
    Ok(Tree::Join(Box::new(alloc, first?)?, Box::new(alloc, second?)?))
}

fn repeated(alloc: Global, body: Made) -> Made {
    Ok(Tree::Loop(Box::new(alloc, body?)?))
}

fn straight(alloc: Global) -> Made {
    let mixed = group(&MIXED);
    let batch = [
        group(&PUSHING), felt(7), mixed, group(&U32), mixed, group(&MEMORY), mixed, mixed,
    ];
    span(alloc, batch, 7799, batch)
}

fn counting(alloc: Global) -> Made {
    let squaring = group(&SQUARING);
    let batch = [
        squaring, squaring, squaring, squaring, squaring, squaring, group(&COUNTING), minus_one(),
    ];
    repeated(alloc, span(alloc, batch, 0, batch))
}

fn one(alloc: Global) -> Made {
    let batch = batch(&[group(&[Op::Incr])]);
    span(alloc, batch, 0, batch)
}

// So many times nine zeros below two cells, and calls until the second of them is counted down.
fn calls(alloc: Global, nines: usize) -> Made {
    let pads = batch(&[group(&PADDING)]);
    let push = batch(&[group(&[Op::Push, Op::Pad, Op::Push]), felt(20000), felt(1)]);
    let callee = Tree::Call(Box::new(alloc, one(alloc)?)?);
    let count = batch(&[group(&COUNTING), minus_one()]);
    let turn = join(alloc, Ok(callee), span(alloc, count, 0, count));
    join(alloc, span(alloc, pads, nines, push), repeated(alloc, turn))
}

// A balanced tree of 65,536 spans.
fn balanced(alloc: Global) -> Made {
    let mut level: Vec<Tree> = Vec::new(alloc);
    for _ in 0..65536 {
        level.push(one(alloc)?)?;
    }
    for _ in 0..16 {
        let mut above: Vec<Tree> = Vec::new(alloc);
        for _ in 0..level.len() / 2 {
            if let (Some(first), Some(second)) = (level.pop(), level.pop()) {
                above.push(join(alloc, Ok(first), Ok(second))?)?;
            }
        }
        level = above;
    }
    level.pop().ok_or(Memory::Memory)
}

fn inputs(alloc: Global, numbers: &[u64]) -> Result<Inputs, Memory> {
    let mut stack = Felts::new(alloc);
    for number in numbers {
        stack.push(felt(*number))?;
    }
    if stack.len() > 16 {
        return Err(Memory::Memory);
    }
    Ok(Inputs::new(stack, Felts::new(alloc)))
}

// Prints a case's name, its time in microseconds, its cycles, and what it came to.
fn time(rt: &HostRuntime, name: &str, tree: Made, numbers: &[u64]) -> io::Result<()> {
    let alloc = rt.alloc();
    let params = Params { first: constants(1), second: constants(7) };
    let (Ok(tree), Ok(inputs)) = (tree, inputs(alloc, numbers)) else {
        return println!(rt; "out of memory");
    };
    let kernel = Words::new(alloc);
    if kernel.len() > 255 || !are_distinct(kernel.as_slice()) {
        return println!(rt; "no kernel");
    }
    let program = Program::new(tree, kernel, Exports::new(alloc));
    let start = Instant::now(rt)?;
    let run = execute(alloc, &params, &program, &inputs, 524287);
    let micros = start.elapsed(rt)?.as_micros();
    let Ok(run) = run else {
        return println!(rt; "{name} stopped");
    };
    let cycles = run.events.len();
    let depth = run.state.depth();
    let cells = run.state.visible();
    let top = cells[0];
    println!(rt; "{name} {micros} {cycles} {depth} {top}")
}

fn main(rt: HostRuntime) -> io::Result<()> {
    for word in env::args(&rt)?.skip(1) {
        for _ in 0..5 {
            run(&rt, word.as_str())?;
        }
    }
    Ok(())
}

fn run(rt: &HostRuntime, case: &str) -> io::Result<()> {
    let alloc = rt.alloc();
    match case {
        "straight" => time(rt, case, straight(alloc), &[5, 7]),
        "loop" => time(rt, case, counting(alloc), &[1, 5, 7800]),
        "calls_16" => time(rt, case, calls(alloc, 0), &[]),
        "calls_10000" => time(rt, case, calls(alloc, 1111), &[]),
        "calls_100000" => time(rt, case, calls(alloc, 11111), &[]),
        "equal_spans" => time(rt, case, balanced(alloc), &[]),
        _ => println!(rt; "no such case"),
    }
}
END
# shellcheck source=bench/plain.sh
. "$top/bench/plain.sh"
make_plain execute
cd "$work/crates/bench_execute"
rt run >"$work/log" 2>&1 || { cat "$work/log"; exit 1; }
out/bench_execute "$@" | sed 's/^/processor /' >>"$work/times"
"$work/execute" "$@" | sed 's/^/plain /' >>"$work/times"
awk -v most="$most" '{
    if (NF != 6) { print "a case did not end: " $0; failed = 1; exit 1 }
    came = $4 " " $5 " " $6
    if (!($2 in results)) { results[$2] = came; order[++count] = $2; cycles[$2] = $4 }
    if (results[$2] != came) { print "the results differ: " $0; failed = 1; exit 1 }
    if (!(($1, $2) in least) || $3 < least[$1, $2]) least[$1, $2] = $3
}
END {
    if (failed) exit 1
    for (i = 1; i <= count; i++) {
        name = order[i]; plain = least["plain", name]; ours = least["processor", name]
        printf "%s: %d cycles, plain Rust %d us (%.0f ns a cycle), processor %d us (%.0f ns a cycle), ratio %.2f of at most %s\n",
            name, cycles[name], plain, 1000 * plain / cycles[name], ours, 1000 * ours / cycles[name], ours / plain, most
    }
}' "$work/times"
