//! Permutations in plain Rust, for `permute.sh` to compare with: prints the microseconds of 20,000 of them, and an element of the last.
use reference::permutation::{Params, permute};
use std::time::Instant;

fn main() {
    let constants = |from: u64| std::array::from_fn(|k| std::array::from_fn(|i| from + 1000 * k as u64 + i as u64));
    let params = Params { first: constants(1), second: constants(7) };
    let mut state = [0; 12];
    let start = Instant::now();
    for _ in 0..20000 {
        state = permute(&params, state);
    }
    println!("{} {}", start.elapsed().as_micros(), state[4]);
}
