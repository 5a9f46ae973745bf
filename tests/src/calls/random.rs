//! Random calls, every pair of group bytes in turn.
use crate::compare_calls::Calls;
use crate::generate::{self, room};
use crate::groups::kind::SORTS;
use crate::random::{rounds, Random};

/// How many calls are made for every pair of group bytes: in a round, and for each fault.
const TURNS: usize = 300;
const FEW: usize = 6;

pub fn all(calls: &mut Calls, seed: u64) {
    for round in 0..rounds() {
        turns(calls, seed ^ 0xD0 ^ round << 32, TURNS);
    }
}

pub fn few(calls: &mut Calls, seed: u64) {
    turns(calls, seed ^ 0xD1, FEW);
}

fn turns(calls: &mut Calls, seed: u64, turns: usize) {
    let mut random = Random::new(seed);
    for _ in 0..turns {
        for (source, ..) in SORTS {
            for (target, ..) in SORTS {
                one(calls, &mut random, source, target);
            }
        }
    }
}

/// A regrouping call, and a listing call with slices that may be short.
fn one(calls: &mut Calls, random: &mut Random, source: u8, target: u8) {
    let call = generate::call(random, source, target);
    let output = room::output(random, &call);
    let _ = calls.regroup(&call, output);
    let count = room::count_of(&call).unwrap_or_else(|| random.below(5));
    let (key_bytes, numbers) = (room::about(random, 16 * count), room::about(random, 3 * count));
    calls.listing(&call, key_bytes, numbers);
}
