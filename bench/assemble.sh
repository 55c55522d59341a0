#!/bin/bash
# Assembles sources by masm_link and by plain Rust (digest.rs over reference/) in turn, and prints for each the least time of
# both in microseconds, the peak memory of both processes, and the ratios, each of which is to be at most 1.3. The sources
# are many procedures in near 1,000,000 bytes; a chain of 600 procedures, each used by the next one and by begin, whose tree
# has near 524,288 operations; and a chain of near 1,000,000 bytes into a cycle, which is refused. Two kinds are assembled
# at two lengths, to show that time grows with the length: chains of procedures, each used by the next one alone, and
# procedures that begin calls one behind the other. Their times are to have ratios of at most 1.2. The program over
# masm_link is made in a temporary folder.
set -e
top=$(cd "$(dirname "$0")/.." && pwd)
work=$(mktemp -d)
trap 'rm -rf "$work"' EXIT
# shellcheck source=bench/crates.sh
. "$top/bench/crates.sh"
libraries='masm_link masm_lex block_tree op_pack rpo_hash host_io vm_io vm_field'
# shellcheck disable=SC2086
copy_crates $libraries
mkdir -p "$work/crates/bench_assemble/src"
echo "bench_assemble: $libraries" >>"$work/crates.txt"
cat >"$work/crates/bench_assemble/src/main.rt" <<'END'
//! Times the assembling of a source.
#![tactic(auto)]

use block_tree::Tree;
use host_io::FolderShelf;
use masm_lex::MAX_SOURCE;
use masm_link::{AsmError, assemble};
use op_pack::Batches;
use rpo_hash::Params;
use std::time::Instant;
use std::{env, io};
use vm_field::{Bytes, Felt};
use vm_io::Shelf;

const NO_CONSTANTS: Params = Params {
    first: [[Felt::ZERO; 12]; 7],
    second: [[Felt::ZERO; 12]; 7],
};

// How many batches a tree has, and the sum of their elements. No case has a dynamic block.
#[derive(Clone, Copy)]
struct Tally {
    batches: u64,
    sum: u64,
}

fn both(a: Tally, b: Tally) -> Tally {
    Tally {
        batches: a.batches.wrapping_add(b.batches),
        sum: a.sum.wrapping_add(b.sum),
    }
}

fn of_batches(batches: &Batches) -> Tally {
    let mut found = Tally { batches: 0, sum: 0 };
    for batch in batches.as_slice() {
        found.batches = found.batches.wrapping_add(1);
        for felt in batch {
            found.sum = found.sum.wrapping_add(felt.value());
        }
    }
    found
}

fn of_tree(tree: &Tree) -> Tally {
    match tree {
        Tree::Opaque(_) | Tree::Dyn(_) => Tally { batches: 0, sum: 0 },
        Tree::Span(batches) => of_batches(batches),
        Tree::Join(a, b) => both(of_tree(a), of_tree(b)),
        Tree::Split(a, b) => both(of_tree(a), of_tree(b)),
        Tree::Loop(a) => of_tree(a),
        Tree::Call(a) => of_tree(a),
        Tree::Syscall(a) => of_tree(a),
    }
}

// Prints the case, the time in microseconds, the source's length, and what it came to.
fn time(rt: &HostRuntime, case: &str, source: &Bytes) -> io::Result<()> {
    let alloc = rt.alloc();
    let source = source.as_slice();
    if source.len() > MAX_SOURCE {
        return println!(rt; "too long");
    }
    let start = Instant::now(rt)?;
    let answer = assemble(alloc, &NO_CONSTANTS, source, None);
    let micros = start.elapsed(rt)?.as_micros();
    let length = source.len();
    match answer {
        Ok(program) => {
            let found = of_tree(&program.tree);
            let batches = found.batches;
            let sum = found.sum;
            println!(rt; "{case} {micros} {length} tree {batches} {sum}")
        }
        Err(AsmError::Bad { line, column, cause, .. }) => {
            println!(rt; "{case} {micros} {length} {cause} {line} {column}")
        }
        Err(AsmError::Memory) => println!(rt; "out of memory"),
    }
}

fn main(rt: HostRuntime) -> io::Result<()> {
    let mut shelf = FolderShelf::new(&rt);
    for word in env::args(&rt)?.skip(1) {
        let case = word.as_str();
        if case.len() > 200 {
            return println!(rt; "no such case");
        }
        match shelf.read(rt.alloc(), case, 1048576) {
            Ok(source) => time(&rt, case, &source)?,
            Err(_) => println!(rt; "no source")?,
        }
    }
    Ok(())
}
END
# shellcheck source=bench/plain.sh
. "$top/bench/plain.sh"
make_plain digest
cd "$work/crates/bench_assemble"
rt run >"$work/log" 2>&1 || { cat "$work/log"; exit 1; }
python3 - "$work" <<'PY'
import os, subprocess, sys

work = sys.argv[1]
os.chdir(work)

def procedures():
    bodies = [
        "push.17 add dup mul swap drop",
        "neg add.5 mul.3",
        "if.true neg else add end",
        "repeat.3 neg swap end",
        "while.true dup end",
    ]
    count = 20300
    lines = [f"proc.f{i} {bodies[i % 5]} end" for i in range(count)]
    lines += ["begin"] + [("call" if i % 50 == 0 else "exec") + f".f{i}" for i in range(count)]
    return "\n".join(lines + ["end"])

def chain():
    lines = ["proc.c0 repeat.270 neg end end"]
    lines += [f"proc.c{k} exec.c{k - 1} neg swap end" for k in range(1, 600)]
    return "\n".join(lines + ["begin"] + [f"exec.c{k}" for k in range(600)] + ["end"])

def refused():
    lines = [f"proc.f{i} exec.f{i + 1} neg end" for i in range(31900)]
    return "\n".join(lines + ["proc.f31900 exec.f31900 end", "begin exec.f0 end"])

def handed_on(count):
    lines = ["proc.c0 neg swap end"]
    lines += [f"proc.c{k} exec.c{k - 1} neg swap end" for k in range(1, count)]
    return "\n".join(lines + [f"begin exec.c{count - 1} end"])

def called(count):
    lines = [f"proc.c{k} neg swap add.{k + 1} end" for k in range(count)]
    return "\n".join(lines + ["begin"] + [f"call.c{k}" for k in range(count)] + ["end"])

cases = {"procedures": (procedures, 1.3), "chain": (chain, 1.3), "refused": (refused, 1.3)}
for count in (5000, 10000):
    cases[f"handed_on_{count}"] = (lambda count=count: handed_on(count), 1.2)
for count in (4000, 8000):
    cases[f"called_{count}"] = (lambda count=count: called(count), 1.2)
for name, (source, _) in cases.items():
    text = source()
    assert len(text) <= 1048576, name
    with open(name, "w") as out:
        out.write(text)

def run(words):
    child = subprocess.Popen(words, stdout=subprocess.PIPE, text=True)
    printed = child.stdout.read().split()
    _, status, usage = os.wait4(child.pid, 0)
    if status != 0 or len(printed) != 6:
        sys.exit(f"{words} did not end: {printed}")
    return int(printed[1]), usage.ru_maxrss / 1000, printed[:1] + printed[2:]

proved = os.path.join(work, "crates/bench_assemble/out/bench_assemble")
for name, (_, most) in cases.items():
    times, peaks = {"masm_link": [], "plain": []}, {}
    for _ in range(5):
        came = {}
        for side, words in (("masm_link", [proved, name]), ("plain", ["./digest", "time", name, name])):
            micros, peaks[side], came[side] = run(words)
            times[side].append(micros)
        if came["masm_link"] != came["plain"]:
            sys.exit(f"the results differ: {came}")
    ours, plain = min(times["masm_link"]), min(times["plain"])
    print(f"{name}: {came['plain'][1]} bytes, {' '.join(came['plain'][2:])}: plain Rust {plain} us, "
          f"{peaks['plain']:.1f} MB, masm_link {ours} us, {peaks['masm_link']:.1f} MB, ratios {ours / plain:.2f} of at most {most} and "
          f"{peaks['masm_link'] / peaks['plain']:.2f} of at most 1.3")
PY
