//! The hash of tokens and validators: folded products under a seed that the system draws, so that
//! strangers cannot choose tokens that meet.

use std::hash::{BuildHasher, Hash, Hasher, RandomState};

use crate::tap::Token;

/// A seed, and a hasher of tokens for std's maps.
#[derive(Clone, Copy)]
pub struct Seed {
    state: u64,
    /// Odd.
    multiplier: u64,
}

impl Seed {
    /// Another seed in each run.
    pub fn new() -> Seed {
        let random = RandomState::new();
        Seed {
            state: random.hash_one(1u64),
            multiplier: random.hash_one(2u64) | 1,
        }
    }

    /// The hash of a token.
    #[inline(always)]
    pub fn token(self, token: Token) -> u64 {
        self.add(self.add(self.state, token.high), token.low)
    }

    /// The hash of a validator.
    #[inline(always)]
    pub fn validator(self, validator: u32) -> u32 {
        (fold(validator as u64 ^ self.state, self.multiplier) >> 32) as u32
    }

    #[inline(always)]
    fn add(self, state: u64, number: u64) -> u64 {
        fold(state ^ number, self.multiplier)
    }
}

/// The two halves of the product, joined by xor.
#[inline(always)]
fn fold(a: u64, b: u64) -> u64 {
    let product = a as u128 * b as u128;
    product as u64 ^ (product >> 64) as u64
}

/// The state of a hash for std's maps.
pub struct TokenHasher {
    seed: Seed,
    state: u64,
}

impl BuildHasher for Seed {
    type Hasher = TokenHasher;

    fn build_hasher(&self) -> TokenHasher {
        TokenHasher {
            seed: *self,
            state: self.state,
        }
    }
}

impl Hasher for TokenHasher {
    fn write(&mut self, _: &[u8]) {
        unreachable!("only tokens are hashed")
    }

    fn write_u64(&mut self, number: u64) {
        self.state = self.seed.add(self.state, number);
    }

    fn finish(&self) -> u64 {
        self.state
    }
}

impl Hash for Token {
    fn hash<H: Hasher>(&self, state: &mut H) {
        state.write_u64(self.high);
        state.write_u64(self.low);
    }
}
