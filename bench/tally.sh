#!/bin/bash
# Times 2,000,000 counts of tuples of 3, 5 and 12 elements and of values below 2^16, and the search for the least tuple
# apart, by bus_kit and by plain Rust (tally.rs over reference/) in turn, and prints the least time of each in microseconds and
# their ratio. The program over bus_kit is made in a temporary folder.
set -e
top=$(cd "$(dirname "$0")/.." && pwd)
work=$(mktemp -d)
trap 'rm -rf "$work"' EXIT
# shellcheck source=bench/crates.sh
. "$top/bench/crates.sh"
copy_crates bus_kit vm_field
mkdir -p "$work/crates/bench_tally/src" "$work/crates/bench_tally/proofs/ask_all"
echo 'bench_tally: bus_kit vm_field anyhow' >>"$work/crates.txt"
cat >"$work/crates/bench_tally/src/main.rt" <<'END'
//! Times counts of tuples.
#![tactic(auto)]

ghost use Rattle.std.specs.Prelude.{◌≡◌, ℕ, ◌≤◌, List};

use bus_kit::{Count, Seed, Tally, Unequal, ValueTally, ask};
use std::alloc::Global;
use std::time::Instant;
use vm_field::{Felt, Memory};

// Values below 2^16 where the width is 1, and distinct tuples else.
fn ask_all<const N: usize, T: Count<N>>(tally: &mut T) -> Result<(), Memory>
    requires positive { 1 ≤ N }
    requires few { N ≤ 14 }
    requires none { (u : List ℕ) → T.both tally.old u ≡ (0, 0) }
{
    let mut tuple = [Felt::ZERO; N];
    for i in 0..2000000u32 {
        let mixed = i.wrapping_mul(2654435761);
        if N == 1 {
            tuple[0] = Felt::from_u32(mixed % 65536);
        } else {
            tuple[0] = Felt::from_u32(mixed);
            tuple[N - 1] = Felt::from_u32(i);
        }
        ask(tally, &tuple)?;
    }
    Ok(())
}

fn tell(
    rt: &HostRuntime,
    width: usize,
    adds: u128,
    start: &Instant,
    found: Option<Unequal>,
) -> anyhow::Result<()> {
    let scan = start.elapsed(rt)?.as_micros();
    let asked = found.map_or(0, |x| x.asked);
    println!(rt; "{width} {adds} {scan} {asked}")?;
    Ok(())
}

fn time_tuples<const N: usize>(rt: &HostRuntime, alloc: Global) -> anyhow::Result<()>
    requires positive { 1 ≤ N }
    requires few { N ≤ 14 }
{
    let mut tally = Tally::<N>::new(alloc, Seed::new(0));
    let start = Instant::now(rt)?;
    ask_all(&mut tally)?;
    let adds = start.elapsed(rt)?.as_micros();
    let start = Instant::now(rt)?;
    let found = tally.unequal();
    tell(rt, N, adds, &start, found)
}

fn time_values(rt: &HostRuntime, alloc: Global) -> anyhow::Result<()> {
    let mut tally = ValueTally::new(alloc, Seed::new(0));
    let start = Instant::now(rt)?;
    ask_all(&mut tally)?;
    let adds = start.elapsed(rt)?.as_micros();
    let start = Instant::now(rt)?;
    let found = tally.unequal();
    tell(rt, 1, adds, &start, found)
}

fn main(rt: HostRuntime) -> anyhow::Result<()> {
    let alloc = rt.alloc();
    time_values(&rt, alloc)?;
    time_tuples::<3>(&rt, alloc)?;
    time_tuples::<5>(&rt, alloc)?;
    time_tuples::<12>(&rt, alloc)
}
END
cat >"$work/crates/bench_tally/proofs/ask_all/Invariants.antt" <<'END'
use Rattle.std.proofs.Common.{ℕ, ◌≤◌, List}
use Rattle.bench_tally.proofs.ask_all.Given as goal

abbrev pub invariant-loop-i : goal.invariant-loop-i
invariant-loop-i g l = (u : List ℕ) → (g.T.Count.both l.tally u).0 ≤ l.i
END
# shellcheck source=bench/plain.sh
. "$top/bench/plain.sh"
make_plain tally
cd "$work/crates/bench_tally"
rt run >"$work/log" 2>&1 || { cat "$work/log"; exit 1; }
for _ in 1 2 3 4 5; do
    "$work/tally" >>"$work/plain.times"
    out/bench_tally >>"$work/proved.times"
done
if [ "$(cut -d' ' -f1,4 "$work"/*.times | sort -u | wc -l)" != 4 ]; then
    echo "the results differ"
    exit 1
fi
least() {
    grep "^$1 " "$work/$2.times" | cut -d' ' -f"$3" | sort -n | head -1
}
for width in 1 3 5 12; do
    for field in 2 3; do
        # The first value is apart, so that the search among values ends at once.
        [ "$width$field" = 13 ] && continue
        plain=$(least $width plain $field)
        proved=$(least $width proved $field)
        name=$([ $field = 2 ] && echo "counts" || echo "search")
        echo "width $width, $name: plain Rust $plain, bus_kit $proved, ratio $(echo "scale=2; $proved / $plain" | bc)"
    done
done
