//! Elements that measure themselves (02, point 5): triplets as values, whole and damaged.
use super::key;
use super::plan::{longest_value, Plan};
use super::wire::ber;
use crate::call::Call;
use crate::random::Random;

/// The record's length of an element that measures itself.
pub const MARK: u32 = u32::MAX;

/// A triplet of at most this many bytes, which are 25 or more; its length now and then in a longer form.
pub fn triplet(random: &mut Random, most: usize) -> Vec<u8> {
    let key = key::any(random);
    let count = match random.below(8) {
        0 | 1 => 0,
        2 => random.choose(&[1, 127, 128, 129, 255, 256, 300]),
        _ => random.below(12),
    };
    let value = random.bytes(count.min(most - 25));
    let longer = random.one_in(3);
    let length = ber(random, value.len() as u64, longer);
    [&key[..], &length, &value].concat()
}

/// A triplet becomes cut off, a byte too long, one without a key, with another length or a malformed one, or two.
pub fn damage(random: &mut Random, triplet: &mut Vec<u8>) {
    match random.below(8) {
        0 => triplet.truncate(random.below(triplet.len().max(1))),
        1 => {
            triplet.pop();
        }
        2 => triplet.push(random.byte()),
        3 | 4 => {
            let place = random.below(16);
            put(triplet, place, random.choose(&[0x00, 0x01, 0x06, 0x80, 0x81, 0xFF]));
        }
        5 => put(triplet, 16, random.choose(&[0x80, 0x89, 0xFF])),
        6 => put(triplet, 16, random.choose(&[0x00, 0x01, 0x7F, 0x81, 0x84, 0x88])),
        _ => triplet.extend_from_within(..),
    }
}

fn put(bytes: &mut [u8], place: usize, byte: u8) {
    if let Some(own) = bytes.get_mut(place) {
        *own = byte;
    }
}

/// Whether a call reads or writes a defined-length pack under a table with such a record.
pub fn marks(call: &Call) -> bool {
    let marked = call.packs.chunks_exact(20).any(|record| record[..4] == [0xFF; 4]);
    marked && [&call.group, &call.target].iter().any(|bytes| bytes.get(5) == Some(&0x05))
}

impl Plan {
    /// In half of the plans one item in four becomes a triplet, and its record says that it measures itself.
    pub fn measure(&mut self, random: &mut Random) {
        if random.one_in(2) {
            let most = longest_value(self.source[5], self.target[5]).min(1_000);
            self.measure_more(random, 4, most);
        }
    }

    /// The same with one item in this many, of at most this many bytes.
    pub fn measure_more(&mut self, random: &mut Random, of: usize, most: usize) {
        for ((_, value), (length, _)) in self.items.iter_mut().zip(&mut self.packs) {
            if random.one_in(of) {
                *value = triplet(random, most);
                *length = MARK;
            }
        }
    }

    /// Damages the first triplet, and perhaps others.
    pub fn damage_measured(&mut self, random: &mut Random) {
        let recorded = self.items.iter_mut().zip(&self.packs);
        let triplets = recorded.filter(|(_, record)| record.0 == MARK).map(|((_, value), _)| value);
        for (n, value) in triplets.enumerate() {
            if n == 0 || random.one_in(3) {
                damage(random, value);
            }
        }
    }
}
