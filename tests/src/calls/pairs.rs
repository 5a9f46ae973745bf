//! Every pair of the 26 group bytes as source and target, with tables, keys and values that both take.
use crate::compare_calls::Calls;
use crate::generate::plan::Plan;
use crate::generate::room::output_of;
use crate::generate::wire;
use crate::groups::kind::SORTS;
use crate::random::Random;

/// The lengths of the values: some repeated keys, an empty value between others.
const LENGTHS: [usize; 5] = [3, 0, 1, 17, 2];

pub fn all(calls: &mut Calls, seed: u64) {
    let mut random = Random::new(seed ^ 0x10);
    for (source, ..) in SORTS {
        for (target, ..) in SORTS {
            let plan = Plan::with_lengths(&mut random, source, target, &LENGTHS);
            let call = wire::call(&mut random, &plan, false);
            let room = output_of(&call).map_or(0, |output| output.len());
            let accepted = calls.regroup(&call, room).is_ok();
            calls.tally.equal(accepted, true, || format!("{source:02X} to {target:02X} is accepted: {}", call.text()));
        }
    }
}
