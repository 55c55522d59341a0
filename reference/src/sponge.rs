//! The sponge (docs/HASH.md): a domain and blocks of eight elements have a digest.
use crate::field::Word;
use crate::permutation::{Params, State, permute};

/// Eight elements.
pub type Block = [u64; 8];

/// The state that a hash begins with.
pub fn start(domain: u8) -> State {
    let mut state = [0; 12];
    state[1] = domain.into();
    state
}

/// The digest that a last state has.
pub fn digest_in(state: &State) -> Word {
    [state[4], state[5], state[6], state[7]]
}

pub fn hashed(params: &Params, domain: u8, blocks: &[Block]) -> Word {
    let mut state = start(domain);
    for block in blocks {
        state[4..].copy_from_slice(block);
        state = permute(params, state);
    }
    digest_in(&state)
}

/// Two words as one block.
pub fn pair(first: Word, second: Word) -> Block {
    let mut block = [0; 8];
    block[..4].copy_from_slice(&first);
    block[4..].copy_from_slice(&second);
    block
}
