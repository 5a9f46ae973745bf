//! Alterations of a plan, which a call may refuse.
use super::measured::MARK;
use super::plan::Plan;
use super::{key, table};
use crate::groups::kind::SORTS;
use crate::groups::Key;
use crate::random::Random;

type Alteration = fn(&mut Random, &mut Plan);

const ALTERATIONS: [Alteration; 24] = [
    forget_tag, widen_tag, narrow_tags, repeat_tag_key, other_item_key, near_item_key, root_as_item_key, excluded_key,
    near_record_key, other_record_length, mark_record, fewer_records, more_records, longer_value, long_value,
    longest_value, empty_values, repeat_item, drop_item, swap_items, other_family, other_target, many_items,
    other_designator,
];

/// One alteration, at times two.
pub fn alter(random: &mut Random, plan: &mut Plan) {
    for _ in 0..1 + random.below(2) {
        random.choose(&ALTERATIONS)(random, plan);
    }
}

/// A place in a list of this length.
fn place(random: &mut Random, length: usize) -> Option<usize> {
    (length > 0).then(|| random.below(length))
}

fn forget_tag(random: &mut Random, plan: &mut Plan) {
    if let Some(i) = place(random, plan.tags.len()) {
        plan.tags.remove(i);
    }
}

/// The last tag becomes a larger one.
fn widen_tag(random: &mut Random, plan: &mut Plan) {
    if let Some(last) = plan.tags.last_mut() {
        let larger: Vec<u32> = table::BORDERS.into_iter().filter(|tag| *tag > last.0).collect();
        if let Some(i) = place(random, larger.len()) {
            last.0 = larger[i];
        }
    }
}

/// The tags become 0, 1, 2 and so on.
fn narrow_tags(_random: &mut Random, plan: &mut Plan) {
    for (i, record) in plan.tags.iter_mut().enumerate() {
        record.0 = i as u32;
    }
}

/// A key of the tag table is that of another record.
fn repeat_tag_key(random: &mut Random, plan: &mut Plan) {
    if let (Some(i), Some(first)) = (place(random, plan.tags.len()), plan.tags.first().copied()) {
        plan.tags[i].1 = first.1;
    }
}

fn other_item_key(random: &mut Random, plan: &mut Plan) {
    if let Some(i) = place(random, plan.items.len()) {
        plan.items[i].0 = key::any(random);
    }
}

fn near_item_key(random: &mut Random, plan: &mut Plan) {
    if let Some(i) = place(random, plan.items.len()) {
        plan.items[i].0 = key::near(random, &plan.items[i].0);
    }
}

/// The last byte of an item's key that is not 00 becomes 00: the root alone may be left.
fn root_as_item_key(random: &mut Random, plan: &mut Plan) {
    if let Some(i) = place(random, plan.items.len()) {
        let key = &mut plan.items[i].0;
        if let Some(last) = key.iter().rposition(|byte| *byte != 0x00).filter(|last| *last >= 8) {
            key[last] = 0x00;
        }
    }
}

/// Bytes 5 and 6 of a key are 02 and 06.
fn excluded_key(random: &mut Random, plan: &mut Plan) {
    let items = plan.items.iter_mut().map(|item| &mut item.0);
    let tags = plan.tags.iter_mut().map(|record| &mut record.1);
    let packs = plan.packs.iter_mut().map(|record| &mut record.1);
    let keys: Vec<&mut Key> = items.chain(tags).chain(packs).collect();
    if let Some(i) = place(random, keys.len()) {
        if let Some(key) = keys.into_iter().nth(i) {
            key[4..6].copy_from_slice(&[0x02, 0x06]);
        }
    }
}

fn near_record_key(random: &mut Random, plan: &mut Plan) {
    if let Some(i) = place(random, plan.packs.len()) {
        plan.packs[i].1 = key::near(random, &plan.packs[i].1);
    }
}

fn other_record_length(random: &mut Random, plan: &mut Plan) {
    if let Some(i) = place(random, plan.packs.len()) {
        let length = &mut plan.packs[i].0;
        *length = match random.below(3) {
            0 => length.wrapping_add(1),
            1 => length.wrapping_sub(1),
            _ => table::number(random, u32::MAX),
        };
    }
}

/// A record says that its element measures itself, or has the length before that.
fn mark_record(random: &mut Random, plan: &mut Plan) {
    if let Some(i) = place(random, plan.packs.len()) {
        plan.packs[i].0 = random.choose(&[MARK, MARK - 1]);
    }
}

fn fewer_records(random: &mut Random, plan: &mut Plan) {
    if let Some(i) = place(random, plan.packs.len()) {
        plan.packs.truncate(i);
    }
}

fn more_records(random: &mut Random, plan: &mut Plan) {
    for _ in 0..1 + random.below(3) {
        let length = if random.one_in(2) { 0 } else { random.below(20) as u32 };
        plan.packs.push((length, key::any(random)));
    }
}

fn longer_value(random: &mut Random, plan: &mut Plan) {
    if let Some(i) = place(random, plan.items.len()) {
        let more = 1 + random.below(3);
        plan.items[i].1.extend(random.bytes(more));
    }
}

/// A value that is too long for lengths of one byte.
fn long_value(random: &mut Random, plan: &mut Plan) {
    if let Some(i) = place(random, plan.items.len()) {
        let length = random.choose(&[255, 256, 257, 300, 700]);
        plan.items[i].1 = random.bytes(length);
        if random.one_in(2) && i < plan.packs.len() {
            plan.packs[i].0 = length as u32;
        }
    }
}

/// Seldom, as other inputs are much shorter: a value with which the input or the output may be over 65,536 bytes.
fn longest_value(random: &mut Random, plan: &mut Plan) {
    if !random.one_in(8) {
        return;
    }
    if let Some(i) = place(random, plan.items.len()) {
        let rest: usize = plan.items.iter().map(|item| item.1.len() + 4).sum();
        let length = 65_540_usize.saturating_sub(rest + random.below(60));
        plan.items[i].1 = random.bytes(length);
        if i < plan.packs.len() {
            plan.packs[i].0 = length as u32;
        }
    }
}

fn empty_values(_random: &mut Random, plan: &mut Plan) {
    for item in &mut plan.items {
        item.1.clear();
    }
}

/// An item is there twice, unless it is one of the longest.
fn repeat_item(random: &mut Random, plan: &mut Plan) {
    if let Some(i) = place(random, plan.items.len()).filter(|i| plan.items[*i].1.len() < 5_000) {
        plan.items.insert(i, plan.items[i].clone());
    }
}

fn drop_item(random: &mut Random, plan: &mut Plan) {
    if let Some(i) = place(random, plan.items.len()) {
        plan.items.remove(i);
    }
}

fn swap_items(random: &mut Random, plan: &mut Plan) {
    if let Some(i) = place(random, plan.items.len().saturating_sub(1)) {
        plan.items.swap(i, i + 1);
    }
}

/// The target differs in one byte that is not byte 6.
fn other_family(random: &mut Random, plan: &mut Plan) {
    let other = key::any(random);
    let i = random.choose(&[6, 7, 8, 9, 15]);
    plan.target[i] = if i == 15 { plan.target[i] ^ 0x01 } else { other[i].max(1) & 0x7F };
}

fn other_target(random: &mut Random, plan: &mut Plan) {
    plan.target[5] = random.choose(&SORTS).0;
}

/// As many items as a set may have, one less or one more: the last is repeated.
fn many_items(random: &mut Random, plan: &mut Plan) {
    let count = random.choose(&[255, 256, 257, 258]);
    if let Some(last) = plan.items.last().cloned() {
        let last = (last.0, last.1[..last.1.len().min(8)].to_vec());
        plan.items.truncate(count);
        plan.items.resize(count, last);
        if random.one_in(2) {
            plan.make_tables(random);
        }
    }
}

/// The source's or the target's byte 7, or the length of its label, is changed.
fn other_designator(random: &mut Random, plan: &mut Plan) {
    let key = if random.one_in(2) { &mut plan.source } else { &mut plan.target };
    if random.one_in(2) {
        key[6] = 1 + random.below(11) as u8;
    } else {
        let from = 8 + random.below(8);
        key[from..].fill(0x00);
    }
}
