//! Lengths of values, and how they stand in the group.
use crate::compare_calls::Calls;
use crate::generate::plan::Plan;
use crate::generate::wire::{self, enclose, fixed, long_ber, shortest_ber, wrap};
use crate::generate::{room, set};
use crate::groups::kind::SORTS;
use crate::groups::Key;
use crate::numbers::Form;
use crate::random::Random;

/// Every pair of group bytes with a value at each border.
pub fn values(calls: &mut Calls, seed: u64) {
    let mut random = Random::new(seed ^ 0x30);
    for (source, ..) in SORTS {
        for (target, ..) in SORTS {
            for length in [0, 1, 127, 128, 255, 256] {
                let plan = Plan::with_lengths(&mut random, source, target, &[length, 1]);
                let call = wire::call(&mut random, &plan, false);
                let output = room::output(&mut random, &call);
                let _ = calls.regroup(&call, output);
            }
        }
    }
}

/// Lengths that may be more than the bytes that are left.
const FIELDS: [u64; 16] = [
    0,
    1,
    127,
    128,
    255,
    256,
    257,
    65_535,
    65_536,
    65_537,
    0x7FFF_FFFF,
    0xFFFF_FFFF,
    0x1_0000_0000,
    0x1_0000_0001,
    0x7FFF_FFFF_FFFF_FFFF,
    u64::MAX,
];

/// A group whose only item is as long as its length says, or shorter, or longer.
pub fn fields(calls: &mut Calls, seed: u64) {
    let mut random = Random::new(seed ^ 0x31);
    for (source, _, form) in SORTS {
        for length in FIELDS {
            for left in [0, 1, 2, 127, 128, 255, 256, 300] {
                field(calls, &mut random, source, form, length, left);
            }
        }
    }
}

/// A group of one item, whose length stands as `length`, with this many bytes after it.
fn field(calls: &mut Calls, random: &mut Random, source: u8, form: Option<Form>, length: u64, left: usize) {
    let mut plan = Plan::with_lengths(random, source, 0x01, &[0]);
    if let Some(record) = plan.packs.first_mut() {
        record.0 = length as u32;
    }
    let mut call = wire::call(random, &plan, false);
    let label = label_width(&call.group, form);
    let span = match form {
        Some(Form::Ber) => shortest_ber(length),
        Some(form) => fixed(form, length),
        None => Vec::new(),
    };
    let contents = [&call.group[17..17 + label], &span, &random.bytes(left)].concat();
    call.group = enclose(&plan.source, &contents);
    let output = room::output(random, &call);
    let _ = calls.regroup(&call, output);
}

/// The width of the label of a group's only item, which is empty.
fn label_width(group: &[u8], form: Option<Form>) -> usize {
    let length = match form {
        Some(Form::Ber | Form::One) => 1,
        Some(Form::Two) => 2,
        Some(_) => 4,
        None => 0,
    };
    group.len() - 17 - length
}

/// Every first byte of a BER length, and every count of bytes after it, as outer length and as an item's.
pub fn forms(calls: &mut Calls, seed: u64) {
    let mut random = Random::new(seed ^ 0x32);
    let key = set::keys(&mut random, 0x04, 0x04).source;
    let item = set::keys(&mut random, 0x02, 0x02).source;
    for first in 0x00..=0xFF {
        for count in 0..=10 {
            let mut length = vec![0x00; count];
            if let Some(last) = length.last_mut() {
                *last = 0x05;
            }
            length.insert(0, first);
            in_both_places(calls, &mut random, &key, &item, &length);
        }
    }
    for count in 1..=8 {
        for n in [0, 1, 5, 6, 7, 0x100, 0x105, 0x1_0005, 0x1_0000_0005, 0x0500_0000_0000_0000] {
            in_both_places(calls, &mut random, &key, &item, &long_ber(n, count));
        }
    }
}

/// A pack whose outer length, or whose only element's length, is these bytes, five bytes after it, or none.
fn in_both_places(calls: &mut Calls, random: &mut Random, key: &Key, item: &Key, length: &[u8]) {
    let packs = [&[0, 0, 0, 5], &item[..]].concat();
    let value = random.bytes(5);
    let inner = enclose(key, &[length, &value].concat());
    let outer = wrap(key, length, &[&[4], &value[..4]].concat());
    let cut = wrap(key, length, &[]);
    for group in [inner, outer, cut] {
        let call = crate::call::Call { tags: Vec::new(), packs: packs.clone(), target: key.to_vec(), group };
        let output = room::output(random, &call);
        let _ = calls.regroup(&call, output);
    }
}
