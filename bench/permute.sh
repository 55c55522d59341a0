#!/bin/bash
# Times 20,000 permutations by rpo_hash and by plain Rust (permute.rs over reference/) in turn, and prints the least time of
# each in microseconds and their ratio. The program over rpo_hash is made in a temporary folder.
set -e
top=$(cd "$(dirname "$0")/.." && pwd)
work=$(mktemp -d)
trap 'rm -rf "$work"' EXIT
# shellcheck source=bench/crates.sh
. "$top/bench/crates.sh"
copy_crates rpo_hash vm_field
mkdir -p "$work/crates/bench_permute/src"
echo 'bench_permute: rpo_hash vm_field' >>"$work/crates.txt"
cat >"$work/crates/bench_permute/src/main.rt" <<'END'
//! Times permutations.
#![tactic(auto)]

use rpo_hash::{Params, permute};
use std::io;
use std::time::Instant;
use vm_field::Felt;

fn constants(from: u64) -> [[Felt; 12]; 7] {
    let mut constants = [[Felt::ZERO; 12]; 7];
    for k in 0..7 {
        for i in 0..12 {
            let number = u128::from(from) + 1000 * k as u128 + i as u128;
            constants[k][i] = Felt::reduced(number);
        }
    }
    constants
}

fn main(rt: HostRuntime) -> io::Result<()> {
    let params = Params { first: constants(1), second: constants(7) };
    let mut state = [Felt::ZERO; 12];
    let start = Instant::now(&rt)?;
    for _i in 0..20000 {
        state = permute(&params, state);
    }
    let micros = start.elapsed(&rt)?.as_micros();
    let fourth = state[4];
    println!(rt; "{micros} {fourth}")
}
END
# shellcheck source=bench/plain.sh
. "$top/bench/plain.sh"
make_plain permute
cd "$work/crates/bench_permute"
rt run >"$work/log" 2>&1 || { cat "$work/log"; exit 1; }
for _ in 1 2 3 4 5 6 7; do
    "$work/permute" >>"$work/plain.times"
    out/bench_permute >>"$work/proved.times"
done
if [ "$(cut -d' ' -f2 "$work"/*.times | sort -u | wc -l)" != 1 ]; then
    echo "the results differ"
    exit 1
fi
plain=$(sort -n "$work/plain.times" | head -1 | cut -d' ' -f1)
proved=$(sort -n "$work/proved.times" | head -1 | cut -d' ' -f1)
echo "plain Rust $plain, rpo_hash $proved, ratio $(echo "scale=3; $proved / $plain" | bc)"
