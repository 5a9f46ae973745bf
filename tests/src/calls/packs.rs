//! Packs with too few records, too many, and others.
use crate::compare_calls::Calls;
use crate::generate::plan::Plan;
use crate::generate::table::Record;
use crate::generate::{key, room, wire};
use crate::random::Random;

/// Every kind of pack from and to a universal, a local and a global set and other packs, with 0 to 4 items and 0 to 5
/// records.
pub fn all(calls: &mut Calls, seed: u64) {
    let mut random = Random::new(seed ^ 0x70);
    for pack in [0x04, 0x24, 0x44, 0x64, 0x05] {
        for other in [0x01, 0x1B, 0x04, 0x24, 0x05, 0x02] {
            for items in 0..=4 {
                for records in 0..=5 {
                    counted(calls, &mut random, [pack, other], items, records);
                    counted(calls, &mut random, [other, pack], items, records);
                }
            }
        }
    }
}

fn counted(calls: &mut Calls, random: &mut Random, [source, target]: [u8; 2], items: usize, records: usize) {
    let lengths: Vec<usize> = (0..items).map(|_| random.below(4)).collect();
    let mut plan = Plan::with_lengths(random, source, target, &lengths);
    plan.measure(random);
    plan.packs.truncate(records);
    while plan.packs.len() < records {
        let record = another(random, &plan.packs);
        plan.packs.push(record);
    }
    if random.one_in(3) {
        change_one(random, &mut plan.packs);
    }
    let call = wire::call(random, &plan, false);
    let output = room::output(random, &call);
    let _ = calls.regroup(&call, output);
}

/// One more record: the last one's key or another, a length of 0 or more.
fn another(random: &mut Random, records: &[Record]) -> Record {
    let length = if random.one_in(2) { 0 } else { random.below(4) as u32 };
    match records.last() {
        Some((_, key)) if random.one_in(2) => (length, *key),
        _ => (length, key::any(random)),
    }
}

/// Another length, or a key that differs a little, in one record.
fn change_one(random: &mut Random, records: &mut [Record]) {
    if records.is_empty() {
        return;
    }
    let place = random.below(records.len());
    let record = &mut records[place];
    match random.below(4) {
        0 => record.0 = record.0.wrapping_add(1),
        1 => record.0 = record.0.wrapping_sub(1),
        2 => record.0 = random.choose(&[0, 0x7FFF_FFFF, 0x8000_0000, u32::MAX]),
        _ => record.1 = key::near(random, &record.1),
    }
}
