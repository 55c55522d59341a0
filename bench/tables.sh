#!/bin/bash
# Times a table of 2^19 rows of 65 elements: pushing the rows, reading all of them row by row, and reading one column of all, by
# vm_table and by plain Rust with the same blocks (tables.rs, rustc -O) in turn, and prints the least time of each of ten in
# microseconds and their ratio, which is to be at most 1.2. The program over vm_table is made in a temporary folder.
set -e
top=$(cd "$(dirname "$0")/.." && pwd)
work=$(mktemp -d)
trap 'rm -rf "$work"' EXIT
# shellcheck source=bench/crates.sh
. "$top/bench/crates.sh"
copy_crates vm_table vm_field
mkdir -p "$work/crates/bench_tables/src"
echo 'bench_tables: vm_table vm_field anyhow' >>"$work/crates.txt"
cat >"$work/crates/bench_tables/src/main.rt" <<'END'
//! Times a table's calls.
#![tactic(auto)]

ghost use Rattle.std.specs.Prelude.{◌<◌};

use std::alloc::Global;
use std::time::Instant;
use vm_field::{Felt, Memory};
use vm_table::{Table, View};

fn row_of(i: u32) -> [Felt; 65] {
    let mut row = [Felt::ZERO; 65];
    for column in 0..65usize {
        row[column] = Felt::from_u32(i.wrapping_mul(column as u32 + 1));
    }
    row
}

fn filled(alloc: Global) -> Result<Table<65>, Memory> {
    let mut table = Table::new(alloc);
    for i in 0..524288u32 {
        table.push_row(&row_of(i))?;
    }
    Ok(table)
}

fn sum_of_rows(table: &Table<65>) -> u64 {
    let mut sum = 0u64;
    for i in 0..table.rows() {
        let row = table.row(i);
        for column in 0..65usize {
            sum = sum.wrapping_add(row.cell(column).value());
        }
    }
    sum
}

fn sum_of_column(table: &Table<65>, column: usize) -> u64
    requires { column < 65 }
{
    let mut sum = 0u64;
    for block in 0..table.blocks() {
        for cell in table.column(block, column) {
            sum = sum.wrapping_add(cell.value());
        }
    }
    sum
}

fn main(rt: HostRuntime) -> anyhow::Result<()> {
    let start = Instant::now(&rt)?;
    let table = filled(rt.alloc())?;
    let took = start.elapsed(&rt)?.as_micros();
    let rows = table.rows();
    println!(rt; "push {took} {rows}")?;
    let start = Instant::now(&rt)?;
    let sum = sum_of_rows(&table);
    let took = start.elapsed(&rt)?.as_micros();
    println!(rt; "rows {took} {sum}")?;
    let start = Instant::now(&rt)?;
    let sum = sum_of_column(&table, 40);
    let took = start.elapsed(&rt)?.as_micros();
    println!(rt; "column {took} {sum}")?;
    Ok(())
}
END
rustc --edition 2021 -O -o "$work/plain" "$top/bench/tables.rs"
cd "$work/crates/bench_tables"
rt run >"$work/log" 2>&1 || { cat "$work/log"; exit 1; }
for _ in 1 2 3 4 5 6 7 8 9 10; do
    "$work/plain" >>"$work/plain.times"
    out/bench_tables >>"$work/proved.times"
done
if [ "$(cut -d' ' -f1,3 "$work"/*.times | sort -u | wc -l)" != 3 ]; then
    echo "the results differ"
    exit 1
fi
least() {
    grep "^$1 " "$work/$2.times" | cut -d' ' -f2 | sort -n | head -1
}
for part in push rows column; do
    plain=$(least $part plain)
    proved=$(least $part proved)
    echo "$part: plain Rust $plain, vm_table $proved, ratio $(echo "scale=2; $proved / $plain" | bc)"
done
