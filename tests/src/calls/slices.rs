//! Lengths of the slices that the calls write: just enough, one less, more, none.
use crate::compare_calls::Calls;
use crate::generate::plan::Plan;
use crate::generate::{room, wire};
use crate::groups::kind::SORTS;
use crate::random::Random;

pub fn all(calls: &mut Calls, seed: u64) {
    let mut random = Random::new(seed ^ 0xA0);
    for (turn, (source, ..)) in SORTS.into_iter().enumerate() {
        let target = SORTS[(turn * 11 + 5) % SORTS.len()].0;
        let plan = Plan::with_lengths(&mut random, source, target, &[3, 0, 9]);
        let call = wire::call(&mut random, &plan, false);
        let needed = room::output_of(&call).map_or(0, |output| output.len());
        for length in [0, 1, 15, 16, 17, needed - 1, needed, needed + 1, needed + 63, 4_096, 65_536, 70_000] {
            let accepted = calls.regroup(&call, length).is_ok();
            calls.tally.equal(accepted, length >= needed, || format!("{length} bytes for {needed}: {}", call.text()));
        }
        for key_bytes in [0, 1, 16, 47, 48, 49, 63, 64, 4_096] {
            for numbers in [0, 1, 2, 6, 8, 9, 10, 12, 768] {
                let accepted = calls.listing(&call, key_bytes, numbers).answer == 3;
                let enough = key_bytes >= 48 && numbers >= 9;
                calls.tally.equal(accepted, enough, || format!("{key_bytes} bytes and {numbers} numbers for 3 items"));
            }
        }
    }
}
