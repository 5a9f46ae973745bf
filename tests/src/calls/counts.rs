//! Groups of 0, 1, 15 to 18, 255, 256 and 257 items: more than 16, and more than 256, take another way.
use crate::compare_calls::Calls;
use crate::generate::plan::Plan;
use crate::generate::{room, wire};
use crate::groups::kind::SORTS;
use crate::random::Random;

pub fn all(calls: &mut Calls, seed: u64) {
    let mut random = Random::new(seed ^ 0x20);
    for (turn, (source, ..)) in SORTS.into_iter().enumerate() {
        let other = SORTS[(turn * 7 + 3) % SORTS.len()].0;
        for target in [source, 0x01, 0x05, 0x53, 0x62, other] {
            for count in [0, 1, 15, 16, 17, 18, 255, 256, 257] {
                one(calls, &mut random, source, target, count);
            }
        }
    }
}

/// A group of this many items; a 257th has the first one's key, so that a tag table can list it.
fn one(calls: &mut Calls, random: &mut Random, source: u8, target: u8, count: usize) {
    let lengths: Vec<usize> = (0..count).map(|_| random.below(4)).collect();
    let mut plan = Plan::with_lengths(random, source, target, &lengths);
    if count == 257 {
        plan.items[256].0 = plan.items[0].0;
    }
    let call = wire::call(random, &plan, false);
    let output = room::output(random, &call);
    let _ = calls.regroup(&call, output);
    let accepted = room::output_of(&call).is_some();
    calls.tally.equal(accepted, count <= 256, || format!("{count} items from {source:02X} to {target:02X}"));
}
