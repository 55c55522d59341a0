//! Counts of tuples in plain Rust, for `tally.sh` to compare with: a map of keys as wide as the tuples, with a
//! multiplying hash, and an array of counters for values below 2^16.
use reference::checking::{Tally, ValueTally};
use std::time::Instant;

const TUPLES: u32 = 2_000_000;

fn tuple<const N: usize>(i: u32) -> [u64; N] {
    let mut tuple = [0; N];
    tuple[0] = u64::from(i.wrapping_mul(2654435761));
    tuple[N - 1] = u64::from(i);
    tuple
}

fn time<const N: usize>() {
    let mut tally = Tally::<N, u128>::default();
    let start = Instant::now();
    for i in 0..TUPLES {
        tally.ask(tuple::<N>(i));
    }
    let adds = start.elapsed().as_micros();
    let start = Instant::now();
    let least = tally.apart();
    println!("{N} {adds} {} {}", start.elapsed().as_micros(), least.map_or(0, |(_, asked, _)| asked));
}

fn time_values() {
    let mut tally = ValueTally::default();
    let start = Instant::now();
    for i in 0..TUPLES {
        tally.ask(u64::from(i.wrapping_mul(2654435761) % 65536));
    }
    let adds = start.elapsed().as_micros();
    let start = Instant::now();
    let asked = tally.apart().map_or(0, |(_, asked, _)| asked);
    println!("1 {adds} {} {asked}", start.elapsed().as_micros());
}

fn main() {
    time_values();
    time::<3>();
    time::<5>();
    time::<12>();
}
