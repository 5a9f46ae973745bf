//! A xorshift generator (xorshift64*): the same seed gives the same tests.
use std::env;

pub const SEED_VARIABLE: &str = "PERLENHUF_SEED";
const DEFAULT_SEED: u64 = 15_631;

pub const ROUNDS_VARIABLE: &str = "PERLENHUF_ROUNDS";
const DEFAULT_ROUNDS: u64 = 1;

pub struct Random {
    state: u64,
}

impl Random {
    /// The state is never 0.
    pub fn new(seed: u64) -> Random {
        Random { state: seed ^ 0x9E37_79B9_7F4A_7C15 | 1 << 63 }
    }

    pub fn next(&mut self) -> u64 {
        self.state ^= self.state >> 12;
        self.state ^= self.state << 25;
        self.state ^= self.state >> 27;
        self.state.wrapping_mul(0x2545_F491_4F6C_DD1D)
    }

    /// A number below the limit, which is not 0.
    pub fn below(&mut self, limit: usize) -> usize {
        ((self.next() >> 32) as usize) % limit
    }

    pub fn byte(&mut self) -> u8 {
        (self.next() >> 56) as u8
    }

    pub fn bytes(&mut self, count: usize) -> Vec<u8> {
        (0..count).map(|_| self.byte()).collect()
    }

    /// One chance in `of`.
    pub fn one_in(&mut self, of: usize) -> bool {
        self.below(of) == 0
    }

    pub fn choose<T: Copy>(&mut self, items: &[T]) -> T {
        items[self.below(items.len())]
    }

    /// A number of 0 to 64 bits, each count of bits as likely as another.
    pub fn number(&mut self) -> u64 {
        let bits = self.below(65);
        if bits == 0 {
            0
        } else {
            self.next() >> (64 - bits)
        }
    }
}

/// The seed of PERLENHUF_SEED, in base ten, or the default.
pub fn seed() -> u64 {
    setting(SEED_VARIABLE, DEFAULT_SEED)
}

/// How many times the random calls are made anew: PERLENHUF_ROUNDS, in base ten, or the default.
pub fn rounds() -> u64 {
    setting(ROUNDS_VARIABLE, DEFAULT_ROUNDS)
}

fn setting(variable: &str, default: u64) -> u64 {
    match env::var(variable) {
        Ok(text) => text.trim().parse().unwrap_or_else(|_| panic!("{variable} is no number: {text}")),
        Err(_) => default,
    }
}
