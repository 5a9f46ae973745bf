//! How long the slices are that a call writes.
use crate::call::Call;
use crate::fault;
use crate::groups::{listing, regroup};
use crate::random::Random;

/// The bytes that a call writes, whatever the room, where it is accepted.
pub fn output_of(call: &Call) -> Option<Vec<u8>> {
    fault::without(|| regroup::written(&call.tags, &call.packs, &call.target, &call.group, usize::MAX).ok())
}

/// The number of items of a call's group, where that is read.
pub fn count_of(call: &Call) -> Option<usize> {
    fault::without(|| listing::items_of(&call.tags, &call.packs, &call.group).ok().map(|items| items.len()))
}

/// A length of a slice that needs this: just that, a little more, one less, less or none.
pub fn about(random: &mut Random, needed: usize) -> usize {
    match random.below(12) {
        0 => needed.saturating_sub(1),
        1 => random.below(needed + 1),
        2 => 0,
        3..=6 => needed + 1 + random.below(40),
        _ => needed,
    }
}

/// The room of an output slice.
pub fn output(random: &mut Random, call: &Call) -> usize {
    let needed = output_of(call).map_or(random.below(100), |output| output.len());
    about(random, needed)
}
