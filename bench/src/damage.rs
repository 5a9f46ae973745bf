//! Damage to a call: bytes changed, records swapped or repeated, slices cut or lengthened, other kinds, short outputs.
pub mod deep;
pub mod feed;

use crate::operation::{Lent, Operation};
use crate::random::Random;
use crate::side::Side;
use crate::workload::make::{any_ber, body, with_lengths, MEASURED};
use crate::workload::Job;

/// A call and the length of its output slice.
#[derive(Clone)]
pub struct Damaged {
    pub job: Job,
    pub room: usize,
}

type Damage = fn(&mut Random, &mut Damaged);

/// Byte 6 of every kind.
const KINDS: [u8; 26] = [
    0x01, 0x02, 0x22, 0x42, 0x62, 0x03, 0x0B, 0x13, 0x1B, 0x23, 0x2B, 0x33, 0x3B, 0x43, 0x4B, 0x53, 0x5B, 0x63, 0x6B,
    0x73, 0x7B, 0x04, 0x24, 0x44, 0x64, 0x05,
];
/// Bytes at the borders of what lengths, words and keys allow.
const BORDERS: [u8; 12] = [0x00, 0x01, 0x02, 0x06, 0x7F, 0x80, 0x81, 0x82, 0x83, 0x88, 0x89, 0xFF];
/// Tags at the borders of one, two and four bytes, and of words of one to four.
const TAGS: [u32; 12] =
    [0x7F, 0x80, 0xFF, 0x100, 0x3FFF, 0x4000, 0xFFFF, 0x1_0000, 0x1F_FFFF, 0x20_0000, 0x0FFF_FFFF, 0x1000_0000];
const RECORD: usize = 20;
/// What every key begins with.
const START: [u8; 4] = [0x06, 0x0E, 0x2B, 0x34];

const DAMAGES: [Damage; 20] = [
    tag_bytes, pack_bytes, target_bytes, group_bytes, group_front, group_insert, other_kinds, other_source,
    swap_records, repeat_key, cut_tables, cut_target, longer_body, tags_as_packs, short_output, more_items, change_key,
    border_tag, border_length, root_alone,
];

/// None to three damages, at times to the group as another kind.
pub fn damaged(random: &mut Random, job: &Job) -> Damaged {
    let mut damaged = Damaged { job: job.clone(), room: 65_536 };
    if random.one_in(2) {
        other_group(random, &mut damaged.job);
    }
    if random.one_in(4) {
        other_lengths(random, &mut damaged.job);
    }
    for _ in 0..random.below(4) {
        random.choose(&DAMAGES)(random, &mut damaged);
    }
    damaged
}

/// The group becomes what a call to some other kind makes of it, if it is accepted; the target at times too.
fn other_group(random: &mut Random, job: &mut Job) {
    let target = std::mem::replace(&mut job.target, other_key(random, &job.group[..16]));
    let mut output = vec![0; 65_536];
    let answer = Side::Archive.call(job, &mut output) as usize;
    if answer <= output.len() {
        output.truncate(answer);
        job.group = output;
    }
    if random.one_in(2) {
        job.target = if random.one_in(2) { target } else { other_key(random, &target) };
    }
}

/// BER item lengths in other forms, if all were in the shortest.
fn other_lengths(random: &mut Random, job: &mut Job) {
    let mut lent = Lent::largest();
    let accepted = Operation::ListingLonger.call(Side::Baseline, job, &mut lent) <= 256;
    if accepted && lent.longer == 0 && matches!(job.group[5], 0x01 | 0x02 | 0x03 | 0x0B | 0x13 | 0x1B | 0x04) {
        *job = with_lengths(job, |length| any_ber(random, length));
    }
}

/// The key of another kind.
fn other_key(random: &mut Random, key: &[u8]) -> Vec<u8> {
    let mut key = key.to_vec();
    key[5] = random.choose(&KINDS);
    if key[5] & 0x1F == 0x02 {
        let length = 4 + random.below(6);
        give_root(random, &mut key, length);
    }
    key
}

/// Makes a root of 4 to 9 bytes for a global set: the first bytes of all item keys.
fn give_root(random: &mut Random, key: &mut [u8], length: usize) {
    let root = [0x06, 0x0E, 0x2B, 0x34, 0x01, 0x01, 0x01, 0x02, 0x03];
    let c = 1 + random.below(4);
    key[6] = 1 + c as u8;
    key[8..].fill(0x00);
    key[8..8 + length - c.min(length)].copy_from_slice(&root[c.min(length)..length]);
}

/// A byte of a slice becomes another.
fn change(random: &mut Random, bytes: &mut [u8]) {
    if bytes.is_empty() {
        return;
    }
    let i = random.below(bytes.len());
    bytes[i] = match random.below(4) {
        0 => random.byte(),
        1 => bytes[i].wrapping_add(1),
        2 => bytes[i].wrapping_sub(1),
        _ => random.choose(&BORDERS),
    };
}

fn tag_bytes(random: &mut Random, damaged: &mut Damaged) {
    change(random, &mut damaged.job.tags);
}

fn pack_bytes(random: &mut Random, damaged: &mut Damaged) {
    change(random, &mut damaged.job.packs);
}

fn target_bytes(random: &mut Random, damaged: &mut Damaged) {
    change(random, &mut damaged.job.target);
}

fn group_bytes(random: &mut Random, damaged: &mut Damaged) {
    for _ in 0..1 + random.below(4) {
        change(random, &mut damaged.job.group);
    }
}

/// A byte of the group's key, its outer length or its first items.
fn group_front(random: &mut Random, damaged: &mut Damaged) {
    let front = 1 + random.below(64);
    let end = damaged.job.group.len().min(front);
    change(random, &mut damaged.job.group[..end]);
}

/// A key in some slice gets another label, or is one that is excluded.
fn change_key(random: &mut Random, damaged: &mut Damaged) {
    let Job { tags, packs, target, group } = &mut damaged.job;
    let slice = [tags, packs, target, group].into_iter().nth(random.below(4)).unwrap();
    let keys: Vec<usize> = (0..slice.len().saturating_sub(15)).filter(|at| slice[*at..].starts_with(&START)).collect();
    if keys.is_empty() {
        return;
    }
    let at = random.choose(&keys);
    let key = &mut slice[at..at + 16];
    let i = 8 + random.below(7);
    match random.below(4) {
        0 => key[4..6].copy_from_slice(&[0x02, 0x06]),
        1 => key[i..i + 2].copy_from_slice(&[0x81, 0x00]),
        2 => key[i..i + 2].copy_from_slice(&[0x80, 0x01]),
        _ => key[i..].fill(0x00),
    }
}

/// The last tag becomes one at a border of the tag layouts, and the target at times a local set.
fn border_tag(random: &mut Random, damaged: &mut Damaged) {
    let Job { tags, target, .. } = &mut damaged.job;
    if let Some(at) = tags.len().checked_sub(RECORD) {
        tags[at..at + 4].copy_from_slice(&random.choose(&TAGS).to_be_bytes());
    }
    if let Some(byte) = target.get_mut(5).filter(|_| random.one_in(2)) {
        *byte = random.choose(&KINDS[5..21]);
    }
}

/// A record of the pack table marks an element that measures itself, or just does not.
fn border_length(random: &mut Random, damaged: &mut Damaged) {
    let packs = &mut damaged.job.packs;
    if packs.len() >= RECORD {
        let at = RECORD * random.below(packs.len() / RECORD);
        packs[at..at + 4].copy_from_slice(&random.choose(&[MEASURED, MEASURED, MEASURED - 1]).to_be_bytes());
    }
}

/// An item key of a universal set is the root of the global target and no more.
fn root_alone(random: &mut Random, damaged: &mut Damaged) {
    let Job { target, group, .. } = &mut damaged.job;
    if target.len() == 16 && group.len() > 36 && group[5] == 0x01 {
        let length = 8 + random.below(2);
        target[5] = random.choose(&[0x02, 0x22, 0x42, 0x62]);
        give_root(random, target, length);
        if let Some(at) = body(group).filter(|at| at + 16 <= group.len()) {
            group[at + length..at + 16].fill(0x00);
        }
    }
}

/// Bytes put in or taken out, the outer length mended more often than not.
fn group_insert(random: &mut Random, damaged: &mut Damaged) {
    let group = &mut damaged.job.group;
    let at = random.below(group.len() + 1);
    let end = group.len().min(at + random.below(4));
    let count = random.below(4);
    let more = random.bytes(count);
    group.splice(at..end, more);
    if !random.one_in(4) {
        mend(random, group);
    }
}

/// Both byte 6 of the target and, at times, a byte that ends the family or moves the root.
fn other_kinds(random: &mut Random, damaged: &mut Damaged) {
    let target = &mut damaged.job.target;
    if target.len() == 16 {
        target[5] = random.choose(&KINDS);
        if random.one_in(4) {
            target[6] = 1 + random.below(10) as u8;
        }
        if random.one_in(4) {
            target[9 + random.below(7)..].fill(0x00);
        }
    }
}

fn other_source(random: &mut Random, damaged: &mut Damaged) {
    if let Some(byte) = damaged.job.group.get_mut(5) {
        *byte = random.choose(&KINDS);
    }
}

fn a_table<'a>(random: &mut Random, damaged: &'a mut Damaged) -> &'a mut Vec<u8> {
    if random.one_in(2) {
        &mut damaged.job.tags
    } else {
        &mut damaged.job.packs
    }
}

fn swap_records(random: &mut Random, damaged: &mut Damaged) {
    let table = a_table(random, damaged);
    let count = table.len() / RECORD;
    if count > 1 {
        let [i, j] = [random.below(count), random.below(count)];
        let from = if random.one_in(2) { 0 } else { 4 };
        for byte in from..RECORD {
            table.swap(RECORD * i + byte, RECORD * j + byte);
        }
    }
}

fn repeat_key(random: &mut Random, damaged: &mut Damaged) {
    let table = a_table(random, damaged);
    let count = table.len() / RECORD;
    if count > 1 {
        let [i, j] = [random.below(count), random.below(count)];
        table.copy_within(RECORD * i + 4..RECORD * (i + 1), RECORD * j + 4);
    }
}

/// A table loses or gains records, or bytes.
fn cut_tables(random: &mut Random, damaged: &mut Damaged) {
    let table = a_table(random, damaged);
    let cut = if random.one_in(2) { RECORD } else { 1 };
    let step = cut * (1 + random.below(3));
    if random.one_in(2) {
        table.truncate(table.len().saturating_sub(step));
    } else {
        let more = if random.one_in(2) { vec![0xFF; step] } else { table[..step.min(table.len())].to_vec() };
        table.extend(more);
    }
}

fn cut_target(random: &mut Random, damaged: &mut Damaged) {
    if random.one_in(4) {
        damaged.job.target.resize(random.below(20), 0x00);
    }
}

/// The items, or their first bytes, stand a second time.
fn longer_body(random: &mut Random, damaged: &mut Damaged) {
    let group = &mut damaged.job.group;
    let Some(at) = body(group) else {
        return;
    };
    let whole = group.len() - at;
    let count = if random.one_in(4) { random.below(whole + 1) } else { whole };
    group.extend_from_within(at..at + count);
    mend(random, group);
}

/// Items of tag 0 and 10 bytes at the end of a local set: there may be too many, or the output may be too long.
fn more_items(random: &mut Random, damaged: &mut Damaged) {
    let group = &mut damaged.job.group;
    let head: &[u8] = match group.get(5) {
        Some(0x03) => &[0x00, 0x0A],
        Some(0x53) => &[0x00, 0x00, 0x00, 0x0A],
        _ => return,
    };
    for _ in 0..200 + random.below(58) {
        group.extend_from_slice(head);
        group.extend_from_slice(&[0x55; 10]);
    }
    mend(random, group);
}

/// The pack table becomes the tag table's records, with the item lengths that some of them may have.
fn tags_as_packs(random: &mut Random, damaged: &mut Damaged) {
    damaged.job.packs = damaged.job.tags.clone();
    if let Some(byte) = damaged.job.target.get_mut(5).filter(|_| random.one_in(2)) {
        *byte = random.choose(&KINDS[21..]);
    }
}

fn short_output(random: &mut Random, damaged: &mut Damaged) {
    let most = damaged.job.group.len() + 64;
    damaged.room = random.below(most);
}

/// Writes the outer length anew, in some form that holds it.
fn mend(random: &mut Random, group: &mut Vec<u8>) {
    if let Some(at) = body(group) {
        let length = any_ber(random, group.len() - at);
        group.splice(16..at, length);
    }
}
