//! Lent tables.
use super::key;
use crate::groups::Key;
use crate::random::Random;
use std::collections::BTreeSet;

/// A tag or a length, and a key.
pub type Record = (u32, Key);

/// Tags and lengths at which a form ends, or a width changes.
pub const BORDERS: [u32; 20] = [
    0, 1, 127, 128, 129, 255, 256, 257, 16_383, 16_384, 65_535, 65_536, 2_097_151, 2_097_152, 268_435_455, 268_435_456,
    0x7FFF_FFFF, 0x8000_0000, 0xFFFF_FFFE, 0xFFFF_FFFF,
];

/// A number of up to this: a border, a small one or any.
pub fn number(random: &mut Random, most: u32) -> u32 {
    let n = match random.below(3) {
        0 => random.choose(&BORDERS),
        1 => random.below(300) as u32,
        _ => (random.next() >> 32) as u32,
    };
    if n <= most {
        n
    } else {
        random.below(most as usize + 1) as u32
    }
}

/// This many different tags of up to `most`, rising.
fn tags(random: &mut Random, count: usize, most: u32) -> Vec<u32> {
    let mut tags = BTreeSet::new();
    for _ in 0..4 * count {
        if tags.len() < count {
            tags.insert(number(random, most));
        }
    }
    let mut next = 0;
    while tags.len() < count {
        tags.insert(next);
        next += 1;
    }
    tags.into_iter().collect()
}

/// A tag table that lists these keys, each once, with tags of up to `most`, and at times a few other keys.
pub fn tag_table(random: &mut Random, keys: &[Key], most: u32) -> Vec<Record> {
    let mut listed: Vec<Key> = Vec::new();
    for key in keys {
        if !listed.contains(key) && listed.len() < 256 {
            listed.push(*key);
        }
    }
    let more = if random.one_in(2) { random.below(5) } else { 0 };
    for _ in 0..more.min(256 - listed.len()) {
        let other = key::any(random);
        if !listed.contains(&other) {
            listed.push(other);
        }
    }
    for i in (1..listed.len()).rev() {
        listed.swap(i, random.below(i + 1));
    }
    tags(random, listed.len(), most).into_iter().zip(listed).collect()
}

/// A pack table of any few keys, some of them repeated.
pub fn any_pack_table(random: &mut Random) -> Vec<Record> {
    let mut records: Vec<Record> = Vec::new();
    for _ in 0..random.below(5) {
        let key = match records.last() {
            Some(record) if random.one_in(4) => record.1,
            _ => key::any(random),
        };
        records.push((number(random, u32::MAX), key));
    }
    records
}

/// The bytes of a table.
pub fn bytes(records: &[Record]) -> Vec<u8> {
    records.iter().flat_map(|(number, key)| [&number.to_be_bytes()[..], key].concat()).collect()
}
