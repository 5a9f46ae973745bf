//! Inputs and outputs around 65,536 bytes.
use crate::call::Call;
use crate::compare_calls::Calls;
use crate::generate::plan::{longest_value, Plan};
use crate::generate::{room, wire};
use crate::groups::kind::SORTS;
use crate::groups::{Key, MOST_BYTES};
use crate::random::Random;

/// Every pair of group bytes with an input, and with an output, of just these sizes.
pub fn all(calls: &mut Calls, seed: u64) {
    let mut random = Random::new(seed ^ 0x40);
    for (source, ..) in SORTS {
        for (target, ..) in SORTS {
            for size in [MOST_BYTES, MOST_BYTES + 1] {
                sized(calls, &mut random, [source, target], size, |plan| plan.source);
                sized(calls, &mut random, [source, target], size, |plan| plan.target);
            }
        }
    }
    oversize(calls, &mut random);
}

/// A call from one group byte to the other, in which the group of a key has this many bytes, if that can be.
fn sized(calls: &mut Calls, random: &mut Random, [source, target]: [u8; 2], size: usize, key: fn(&Plan) -> Key) {
    let short = longest_value(source, target) == 255;
    let count = if short { 256 } else { random.choose(&[1, 3, 40]) };
    let (least, most) = if short { (128, 255) } else { (256, 65_535) };
    let plan = Plan::with_lengths(random, source, target, &vec![least; count]);
    let Some(call) = resized(random, plan, most, size, key) else {
        return;
    };
    let output = room::output_of(&call).map_or(MOST_BYTES + 10, |output| output.len());
    for room in [output, output - 1] {
        let _ = calls.regroup(&call, room);
    }
}

/// The call of a plan with values of up to this length, no shorter than they were, in which the group of a key has this
/// many bytes, if that can be.
pub fn resized(random: &mut Random, mut plan: Plan, most: usize, size: usize, key: fn(&Plan) -> Key) -> Option<Call> {
    let smallest = wire::group(random, &plan, &key(&plan), false).len();
    let mut more = size.checked_sub(smallest)?;
    let count = plan.items.len();
    for (i, (_, value)) in plan.items.iter_mut().enumerate() {
        let part = more.div_ceil(count - i).min(most - value.len());
        *value = random.bytes(value.len() + part);
        more -= part;
    }
    plan.make_tables(random);
    let right = more == 0 && wire::group(random, &plan, &key(&plan), false).len() == size;
    right.then(|| wire::call(random, &plan, false))
}

/// Inputs over 65,536 bytes, whatever they are.
fn oversize(calls: &mut Calls, random: &mut Random) {
    for size in [65_535, 65_536, 65_537, 65_538, 70_000, 100_000, 131_000] {
        let plan = Plan::with_lengths(random, 0x01, 0x53, &[3, 4]);
        let mut call = wire::call(random, &plan, false);
        call.group.resize(size, 0x00);
        let _ = calls.regroup(&call, 100);
        let zeros = call.with_group(vec![0x00; size]);
        let _ = calls.regroup(&zeros, 100);
    }
}
