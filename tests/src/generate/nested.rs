//! Sets inside sets.
use super::plan::{largest_tag, longest_value};
use super::table::{self, Record};
use super::wire::{ber, fixed, lengths_of, shortest_ber, tag_bytes, wrap};
use super::{bytes, key, set::sort_of};
use crate::call::Call;
use crate::groups::kind::Sort;
use crate::groups::Key;
use crate::numbers::Form;
use crate::random::Random;

/// Byte 6 of every universal and local set.
pub const SETS: [u8; 17] =
    [0x01, 0x03, 0x0B, 0x13, 0x1B, 0x23, 0x2B, 0x33, 0x3B, 0x43, 0x4B, 0x53, 0x5B, 0x63, 0x6B, 0x73, 0x7B];

/// Byte 6 of every other group.
pub const OTHERS: [u8; 9] = [0x02, 0x22, 0x42, 0x62, 0x04, 0x24, 0x44, 0x64, 0x05];

/// The deepest set.
const DEEPEST: usize = 4;

/// A call of this tag table and group; the deep operations take no more.
pub fn call(tags: Vec<u8>, group: Vec<u8>) -> Call {
    Call { tags, packs: Vec::new(), target: Vec::new(), group }
}

/// An item of a set with this byte 6: its label, its length in the fewest bytes, its value.
pub fn item(byte: u8, record: &Record, value: &[u8]) -> Vec<u8> {
    [&label(byte, record)[..], &length(byte, value.len()), value].concat()
}

pub fn label(byte: u8, (tag, key): &Record) -> Vec<u8> {
    match sort_of(byte) {
        Sort::Local(form) => tag_bytes(form, u64::from(*tag)),
        _ => key.to_vec(),
    }
}

/// The form of the lengths of a set's items.
pub fn lengths(byte: u8) -> Form {
    lengths_of(byte).expect("a set's byte 6")
}

pub fn length(byte: u8, length: usize) -> Vec<u8> {
    match lengths(byte) {
        Form::Ber => shortest_ber(length as u64),
        form => fixed(form, length as u64),
    }
}

/// What a random tree is made of: the tag table, whether BER lengths are at times in longer forms, and whether values of
/// nested sets are at times damaged or too deep.
pub struct Nest {
    pub records: Vec<Record>,
    longer: bool,
    faulty: bool,
}

impl Nest {
    /// Tags that most sets take, and keys of sets more often than others.
    pub fn new(random: &mut Random, longer: bool, faulty: bool) -> Nest {
        let keys: Vec<Key> = (0..6 + random.below(8)).map(|_| pool_key(random)).collect();
        let most = random.choose(&[0x7F, 0xFF, 0xFF, 0xFFFF, 0x0FFF_FFFF, u32::MAX]);
        Nest { records: table::tag_table(random, &keys, most), longer, faulty }
    }

    /// What stands in a set of this byte 6 and depth.
    pub fn contents(&self, random: &mut Random, byte: u8, depth: usize) -> Vec<u8> {
        let mut contents = Vec::new();
        let least = usize::from(depth == 1 || !random.one_in(4));
        for _ in 0..least * (1 + random.below(6 - depth)) {
            contents.extend(self.item(random, byte, depth).unwrap_or_default());
        }
        contents
    }

    /// An item whose tag and length fit, at times with a longer form of its length.
    fn item(&self, random: &mut Random, byte: u8, depth: usize) -> Option<Vec<u8>> {
        let record = self.record(random, byte, depth)?;
        let mut value = self.value(random, &record.1, depth);
        if value.len() > longest_value(byte, byte) {
            value.clear();
        }
        let length = match lengths(byte) {
            Form::Ber => ber(random, value.len() as u64, self.longer),
            form => fixed(form, value.len() as u64),
        };
        Some([&label(byte, &record)[..], &length, &value].concat())
    }

    /// A record whose tag fits. One of a set at depth 5 comes seldom, and only into what may be faulty.
    fn record(&self, random: &mut Random, byte: u8, depth: usize) -> Option<Record> {
        let deeper = depth < DEEPEST || self.faulty && random.one_in(30);
        let fits = |record: &&Record| record.0 <= largest_tag(byte, byte) && (deeper || !is_set(&record.1));
        let records: Vec<&Record> = self.records.iter().filter(fits).collect();
        (!records.is_empty()).then(|| *random.choose(&records))
    }

    /// The items of a set, at times damaged; else any few bytes.
    fn value(&self, random: &mut Random, key: &Key, depth: usize) -> Vec<u8> {
        if !is_set(key) || depth >= DEEPEST {
            let count = random.below(8);
            return random.bytes(count);
        }
        let mut contents = self.contents(random, key[5], depth + 1);
        if self.faulty && random.one_in(12) {
            bytes::damage_any(random, &mut contents);
        }
        contents
    }

    /// A call of a tree whose outermost set has this byte 6.
    pub fn call(&self, random: &mut Random, byte: u8) -> Call {
        let outermost = with_byte_6(&key::any(random), byte);
        let contents = self.contents(random, byte, 1);
        let length = ber(random, contents.len() as u64, self.longer);
        call(table::bytes(&self.records), wrap(&outermost, &length, &contents))
    }
}

/// A key of category 02 with this byte 6.
pub fn with_byte_6(key: &Key, byte: u8) -> Key {
    let mut key = *key;
    key[4..6].copy_from_slice(&[0x02, byte]);
    key
}

/// Whether a key is that of a universal or local set.
fn is_set(key: &Key) -> bool {
    key[4] == 0x02 && SETS.contains(&key[5])
}

/// The key of a set, of another group, or any.
fn pool_key(random: &mut Random) -> Key {
    let key = key::any(random);
    match random.below(8) {
        0..=4 => with_byte_6(&key, random.choose(&SETS)),
        5 => with_byte_6(&key, random.choose(&OTHERS)),
        _ => key,
    }
}
