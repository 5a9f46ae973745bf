//! The making of a workload's call: keys, tables, and the group.
use super::{Job, Made, Order, Values, Workload};
use crate::operation::{Lent, Operation};
use crate::random::Random;
use crate::side::Side;

pub const SEED: u64 = 1_563;
/// The most bytes of the items of a group of 65,536: 16 of key and 3 of outer length are taken off.
const MOST_ITEM_BYTES: usize = 65_536 - 19;
/// The length of a pack record that marks an element that measures itself.
pub const MEASURED: u32 = 0xFFFF_FFFF;

impl Made for Workload {
    fn name(&self) -> &'static str {
        self.name
    }

    fn job(&self) -> Job {
        let mut random = Random::new(SEED);
        let keys = self.keys(&mut random);
        let mut places: Vec<usize> = (0..keys.len()).collect();
        match self.order {
            Order::Rising => {}
            Order::Gaps => places.retain(|place| place % 2 == 0),
            Order::Shuffled => shuffle(&mut random, &mut places),
        }
        let items: Vec<([u8; 16], Vec<u8>)> =
            places[..self.items].iter().enumerate().map(|(n, i)| (keys[*i], self.value(&mut random, n))).collect();
        let lengths: Vec<usize> = items.iter().map(|item| item.1.len()).collect();
        let packs = if self.has_pack() { table(&keys, |n| self.record_length(lengths[n])) } else { Vec::new() };
        let tags = table(&keys[..self.tags], |n| self.tag(n));
        let target = group_key(self.to).to_vec();
        let universal = Job { tags, packs, target: group_key(self.from).to_vec(), group: universal(&items) };
        let group = if self.from == 0x01 { universal.group.clone() } else { regrouped(&universal) };
        Job { target, group, ..universal }
    }
}

impl Workload {
    /// One key for each record and item, all different.
    fn keys(&self, random: &mut Random) -> Vec<[u8; 16]> {
        let mut keys = Vec::new();
        while keys.len() < self.items.max(self.tags) {
            let n = keys.len() as u8;
            let label = match self.order {
                Order::Rising | Order::Gaps => vec![0x01 + n / 64, 0x05, 0x01 + n % 64, 0x01],
                Order::Shuffled => (0..4 + random.below(4)).map(|_| 1 + random.below(0x7F) as u8).collect(),
            };
            let key = item_key(&label);
            if !keys.contains(&key) {
                keys.push(key);
            }
        }
        keys
    }

    /// The tag of record n: dense, or with gaps that leave no byte of it unused.
    fn tag(&self, n: usize) -> u32 {
        match self.order {
            Order::Rising | Order::Gaps => n as u32,
            Order::Shuffled => n as u32 * 0x00FE_DCBA + 0x1357,
        }
    }

    /// The length in the pack record of an element with a value of this length.
    fn record_length(&self, length: usize) -> u32 {
        match self.values {
            Values::Measured => MEASURED,
            _ => length as u32,
        }
    }

    /// The value of the n-th item.
    fn value(&self, random: &mut Random, n: usize) -> Vec<u8> {
        let length = match self.values {
            Values::Short | Values::Measured => 1 + random.below(24),
            Values::Of(length) => length,
            Values::Largest => {
                let (each, over) = (MOST_ITEM_BYTES / self.items, MOST_ITEM_BYTES % self.items);
                each + usize::from(n < over) - 18
            }
        };
        let bytes = random.bytes(length);
        match self.values {
            Values::Measured => triplet(&item_key(&[0x03, 0x01 + n as u8 % 64]), &ber(length), &bytes),
            _ => bytes,
        }
    }
}

/// A key, a length and the bytes after it.
pub fn triplet(key: &[u8], length: &[u8], bytes: &[u8]) -> Vec<u8> {
    [key, length, bytes].concat()
}

/// The key of a group with this byte 6. A global set's root is its first 4 bytes and its designator.
pub fn group_key(byte: u8) -> [u8; 16] {
    [0x06, 0x0E, 0x2B, 0x34, 0x02, byte, 0x05, 0x01, 0x01, 0x01, 0x01, 0x02, 0x03, 0x00, 0x00, 0x00]
}

/// The item key that goes on so after the root of the global set's key.
pub fn item_key(label: &[u8]) -> [u8; 16] {
    let mut key = [0x06, 0x0E, 0x2B, 0x34, 0x01, 0x01, 0x01, 0x02, 0x03, 0x00, 0x00, 0x00, 0x00, 0x00, 0x00, 0x00];
    key[9..9 + label.len()].copy_from_slice(label);
    key
}

/// A table of 20-byte records.
pub fn table(keys: &[[u8; 16]], number: impl Fn(usize) -> u32) -> Vec<u8> {
    keys.iter().enumerate().flat_map(|(n, key)| [&number(n).to_be_bytes()[..], key].concat()).collect()
}

/// The shortest BER form of a length.
pub fn ber(length: usize) -> Vec<u8> {
    ber_with(length, least_digits(length))
}

/// The BER form of a length in four bytes, 83 and three digits.
pub fn four(length: usize) -> Vec<u8> {
    ber_with(length, 3)
}

/// Some BER form of a length.
pub fn any_ber(random: &mut Random, length: usize) -> Vec<u8> {
    let least = least_digits(length);
    ber_with(length, least + random.below(9 - least))
}

/// How many digits a length takes at least in BER: none if it is a byte below 80.
fn least_digits(length: usize) -> usize {
    match length {
        0..=0x7F => 0,
        _ => 8 - length.leading_zeros() as usize / 8,
    }
}

/// The BER form of a length with so many digits.
fn ber_with(length: usize, digits: usize) -> Vec<u8> {
    match digits {
        0 => vec![length as u8],
        _ => [&[0x80 + digits as u8], &(length as u64).to_be_bytes()[8 - digits..]].concat(),
    }
}

/// The universal set of the items.
pub fn universal(items: &[([u8; 16], Vec<u8>)]) -> Vec<u8> {
    let body: Vec<u8> = items.iter().flat_map(|(key, value)| triplet(key, &ber(value.len()), value)).collect();
    [&group_key(0x01)[..], &ber(body.len()), &body].concat()
}

/// What the baseline makes of a job. The check before timing holds it to the archive.
pub fn regrouped(job: &Job) -> Vec<u8> {
    let mut output = vec![0; 65_536];
    let answer = Side::Baseline.call(job, &mut output) as usize;
    assert!(answer <= output.len(), "the group of a workload is refused: {answer}");
    output.truncate(answer);
    output
}

/// Where a group's items begin, if its outer length has a known form.
pub fn body(group: &[u8]) -> Option<usize> {
    let at = match *group.get(16)? {
        first @ 0x81..=0x88 => 17 + usize::from(first - 0x80),
        _ => 17,
    };
    (at <= group.len()).then_some(at)
}

/// How many bytes the triplet at the front has: any 16 bytes, a BER length, and that many bytes. Nothing if none is whole.
pub fn triplet_size(bytes: &[u8]) -> Option<usize> {
    let first = *bytes.get(16)?;
    let width = match first {
        0x00..=0x7F => 0,
        0x81..=0x88 => usize::from(first - 0x80),
        _ => return None,
    };
    let digits = bytes.get(17..17 + width)?;
    let short = if width == 0 { u128::from(first) } else { 0 };
    let length = digits.iter().fold(short, |length, digit| 256 * length + u128::from(*digit));
    (length <= (bytes.len() - 17 - width) as u128).then_some(17 + width + length as usize)
}

/// The same call with other BER lengths of its group's items, which are in shortest form.
pub fn with_lengths(job: &Job, mut form: impl FnMut(usize) -> Vec<u8>) -> Job {
    let mut lent = Lent::largest();
    let count = Operation::Listing.call(Side::Baseline, job, &mut lent) as usize;
    let mut at = body(&job.group).expect("a group has an outer length");
    let mut items = Vec::new();
    for [offset, length, _] in &lent.numbers.as_chunks().0[..count] {
        let (offset, length) = (*offset as usize, *length as usize);
        items.extend(&job.group[at..offset - ber(length).len()]);
        items.extend(form(length));
        at = offset + length;
        items.extend(&job.group[offset..at]);
    }
    let group = [&job.group[..16], &ber(items.len()), &items].concat();
    Job { group, ..job.clone() }
}

pub fn shuffle<T>(random: &mut Random, list: &mut [T]) {
    for i in (1..list.len()).rev() {
        list.swap(i, random.below(i + 1));
    }
}
