//! Lengths of sets inside sets: as sent, and as written in the fewest bytes.
use super::build::{call, inside, outermost, set, PLAIN};
use crate::compare_deep::Deep;
use crate::generate::nested::{item, label, SETS};
use crate::generate::wire::{enclose, long_ber};
use std::ops::RangeInclusive;

/// Lengths of a value with which its own length, that of its set or the outer one gets wider.
const VALUES: [RangeInclusive<usize>; 2] = [80..=132, 210..=260];

/// A set with one value inside each of some sets.
pub fn borders(deep: &mut Deep, _seed: u64) {
    for [holder, nested] in [[0x01, 0x01], [0x03, 0x0B], [0x53, 0x03], [0x7B, 0x43]] {
        for length in VALUES.into_iter().flatten() {
            let value = vec![0xAB; length];
            let sent = item(holder, &set(nested), &item(nested, &PLAIN, &value));
            let written = item(0x01, &(0, inside(0x01)), &item(0x01, &PLAIN, &value));
            let output = enclose(&outermost(0x01), &written);
            deep.writes(&format!("a value of {length} bytes"), &call(holder, &sent), &output);
        }
    }
}

/// Longer forms of lengths at every level are read, and the fewest bytes are written.
pub fn longer(deep: &mut Deep, _seed: u64) {
    for byte in SETS {
        for nested in [0x01, 0x03, 0x0B, 0x13, 0x1B] {
            for count in 1..=8 {
                let inner = longer_item(&label(nested, &PLAIN), &[0xAB], count);
                let middle = longer_item(&label(nested, &set(nested)), &inner, count);
                deep.accepted("longer lengths", &call(byte, &item(byte, &set(nested), &middle)));
            }
        }
    }
}

/// An item with a BER length of this many bytes after the first.
fn longer_item(label: &[u8], value: &[u8], count: usize) -> Vec<u8> {
    [label, &long_ber(value.len() as u64, count), value].concat()
}
