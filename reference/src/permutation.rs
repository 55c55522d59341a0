//! The permutation (docs/HASH.md). The seventh roots are taken side by side, by one chain of 72 products.
use crate::field::{add, mul, reduced_short};

const ROW: [u64; 12] = [7, 23, 8, 26, 13, 10, 9, 7, 6, 22, 21, 8];

pub const ROUNDS: usize = 7;

pub type State = [u64; 12];

/// The 168 constants: of each round the first and the second ones.
#[derive(Clone)]
pub struct Params {
    pub first: [State; ROUNDS],
    pub second: [State; ROUNDS],
}

fn mixed(state: &State) -> State {
    let mut turned = *state;
    let mut mixed = [0; 12];
    for cell in &mut mixed {
        let sum: u128 = ROW.iter().zip(&turned).map(|(c, x)| *c as u128 * *x as u128).sum();
        *cell = reduced_short(sum as u64, (sum >> 64) as u64);
        turned.rotate_left(1);
    }
    mixed
}

fn products(a: &State, b: &State) -> State {
    std::array::from_fn(|i| mul(a[i], b[i]))
}

fn squared_times(a: &State, n: u32, b: &State) -> State {
    let mut power = *a;
    for _ in 0..n {
        power = products(&power, &power);
    }
    products(&power, b)
}

pub fn seventh_powers(x: &State) -> State {
    let to_2 = products(x, x);
    let to_4 = products(&to_2, &to_2);
    products(&products(&to_4, &to_2), x)
}

fn seventh_roots(x: &State) -> State {
    let to_2 = products(x, x);
    let to_4 = products(&to_2, &to_2);
    let blocks_2 = squared_times(&to_4, 3, &to_4);
    let blocks_4 = squared_times(&blocks_2, 6, &blocks_2);
    let blocks_8 = squared_times(&blocks_4, 12, &blocks_4);
    let blocks_10 = squared_times(&blocks_8, 6, &blocks_2);
    let twice_10 = squared_times(&blocks_10, 31, &blocks_10);
    let high = squared_times(&twice_10, 1, &blocks_10);
    let low = products(&products(&to_4, &to_2), x);
    squared_times(&high, 2, &low)
}

/// The state before the seventh roots of round k.
pub fn before_roots(params: &Params, k: usize, state: &State) -> State {
    let state = mixed(state);
    let state = mixed(&seventh_powers(&std::array::from_fn(|i| add(state[i], params.first[k][i]))));
    std::array::from_fn(|i| add(state[i], params.second[k][i]))
}

pub fn round(params: &Params, k: usize, state: &State) -> State {
    seventh_roots(&before_roots(params, k, state))
}

pub fn permute(params: &Params, mut state: State) -> State {
    for k in 0..ROUNDS {
        state = round(params, k, &state);
    }
    state
}
