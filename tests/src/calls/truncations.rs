//! Groups that are cut off at every byte: with the outer length of the whole, and with one that is right.
use crate::call::Call;
use crate::compare_calls::Calls;
use crate::generate::plan::Plan;
use crate::generate::room;
use crate::generate::wire::{self, enclose};
use crate::groups::kind::SORTS;
use crate::random::Random;

/// How many groups are cut off for each group byte.
const TURNS: usize = 6;

pub fn all(calls: &mut Calls, seed: u64) {
    let mut random = Random::new(seed ^ 0xB0);
    for (source, ..) in SORTS {
        for turn in 0..TURNS {
            let target = random.choose(&SORTS).0;
            let plan = Plan::with_lengths(&mut random, source, target, &[2, 0, 5]);
            let call = wire::call(&mut random, &plan, turn % 2 == 1);
            cut_off(calls, &mut random, &plan, &call);
        }
    }
    for (target, ..) in SORTS {
        let mut plan = Plan::with_lengths(&mut random, 0x05, target, &[2, 0, 0, 5]);
        plan.measure_more(&mut random, 2, 30);
        let call = wire::call(&mut random, &plan, false);
        cut_off(calls, &mut random, &plan, &call);
    }
}

fn cut_off(calls: &mut Calls, random: &mut Random, plan: &Plan, call: &Call) {
    for end in 0..call.group.len() {
        let cut = call.with_group(call.group[..end].to_vec());
        let output = room::output(random, &cut);
        let _ = calls.regroup(&cut, output);
    }
    let whole = wire::group(random, plan, &plan.source, false);
    let begin = whole.len() - wire::contents(random, plan, &plan.source, |_, _, n| wire::shortest_ber(n)).len();
    for end in begin..whole.len() {
        let cut = call.with_group(enclose(&plan.source, &whole[begin..end]));
        let output = room::output(random, &cut);
        let _ = calls.regroup(&cut, output);
    }
}
