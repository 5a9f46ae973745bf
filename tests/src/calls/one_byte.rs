//! Every byte of a call's inputs changed to each of some values.
use crate::call::Call;
use crate::compare_calls::Calls;
use crate::generate::bytes::BOUNDARY;
use crate::generate::plan::Plan;
use crate::generate::{room, wire};
use crate::groups::kind::SORTS;
use crate::random::Random;

pub fn all(calls: &mut Calls, seed: u64) {
    let mut random = Random::new(seed ^ 0xC0);
    for (source, ..) in SORTS {
        let target = random.choose(&SORTS).0;
        let plan = Plan::with_lengths(&mut random, source, target, &[2, 0, 3]);
        let call = wire::call(&mut random, &plan, false);
        changed(calls, &mut random, &call, |call| &mut call.group);
        changed(calls, &mut random, &call, |call| &mut call.target);
        changed(calls, &mut random, &call, |call| &mut call.tags);
        changed(calls, &mut random, &call, |call| &mut call.packs);
    }
    for [source, target] in [[0x05, 0x01], [0x05, 0x05], [0x05, 0x53], [0x01, 0x05], [0x04, 0x05], [0x05, 0x04]] {
        let mut plan = Plan::with_lengths(&mut random, source, target, &[2, 0, 3]);
        plan.measure_more(&mut random, 2, 30);
        let call = wire::call(&mut random, &plan, false);
        changed(calls, &mut random, &call, |call| &mut call.group);
        changed(calls, &mut random, &call, |call| &mut call.packs);
    }
}

/// Every byte of one input, changed to boundary values and to its neighbours.
fn changed(calls: &mut Calls, random: &mut Random, call: &Call, input: fn(&mut Call) -> &mut Vec<u8>) {
    let mut changed = call.clone();
    for place in 0..input(&mut changed).len() {
        let own = input(&mut changed)[place];
        for byte in BOUNDARY.into_iter().chain([own.wrapping_add(1), own.wrapping_sub(1), own ^ 0x80]) {
            input(&mut changed)[place] = byte;
            let output = room::output(random, &changed);
            let _ = calls.regroup(&changed, output);
        }
        input(&mut changed)[place] = own;
    }
}
