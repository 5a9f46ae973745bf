//! What is before the items: the size of the input, its key and its outer length.
use super::build::{call, chain, outermost, tags, PLAIN};
use crate::compare_deep::Deep;
use crate::generate::nested::{self, item, SETS};
use crate::generate::wire::{enclose, long_ber, wrap};

/// Every byte 6, and keys that differ from a set's elsewhere: only universal and local sets pass.
pub fn keys(deep: &mut Deep, _seed: u64) {
    for byte in 0x00..=0xFF {
        let whole = nested::call(tags(), enclose(&outermost(byte), &[]));
        if SETS.contains(&byte) {
            deep.accepted("an empty set", &whole);
        } else {
            deep.refused(&format!("byte 6 {byte:02X}"), &whole, (5, 0));
        }
    }
    for (place, value) in [(0, 0x07), (3, 0x35), (4, 0x01), (4, 0x03), (6, 0x00), (7, 0x80), (8, 0x80), (15, 0x01)] {
        for byte in SETS {
            let mut key = outermost(byte);
            key[place] = value;
            let call = nested::call(tags(), enclose(&key, &chain(&[byte; 2], &[])));
            deep.refused(&format!("{key:02X?}"), &call, (5, 0));
        }
    }
    for length in 0..16 {
        deep.refused("a key that is cut off", &nested::call(tags(), outermost(0x01)[..length].to_vec()), (5, 0));
    }
}

/// Outer lengths that are missing, malformed or not the bytes left, and longer forms of the right one.
pub fn outer_lengths(deep: &mut Deep, _seed: u64) {
    for byte in SETS {
        let contents = chain(&[byte; 3], &item(byte, &PLAIN, &[0xAB]));
        let lent = |length: &[u8]| nested::call(tags(), wrap(&outermost(byte), length, &contents));
        let right = contents.len() as u64;
        for count in 1..=8 {
            deep.accepted("a longer outer length", &lent(&long_ber(right, count)));
        }
        for length in [right - 1, right + 1, 0, 255] {
            deep.refused("another outer length", &lent(&long_ber(length, 1)), (7, 0));
        }
        let nine = [&[0x89, 0x00][..], &long_ber(right, 8)[1..]].concat();
        for length in [&nine[..], &[0x80], &[0xFF], &[0x88, 1, 0, 0, 0, 0, 0, 0, 0], &[]] {
            deep.refused("a bad outer length", &lent(length), (7, 0));
        }
        for length in [&[][..], &[0x81], &[0x82, 0x00], &[0x01]] {
            let call = nested::call(tags(), wrap(&outermost(byte), length, &[]));
            deep.refused("an outer length that is missing", &call, (7, 0));
        }
    }
}

/// Inputs of 65,536 bytes and one more: in universal form they are written as they are.
pub fn sizes(deep: &mut Deep, _seed: u64) {
    for depth in 1..=4 {
        let sets = vec![0x01; depth];
        let sized = |length: usize| call(0x01, &chain(&sets, &item(0x01, &PLAIN, &vec![0xAB; length])));
        let rest = sized(0x8000).group.len() - 0x8000;
        let call = sized(65_536 - rest);
        deep.tally.equal(call.group.len(), 65_536, || "the input's length".to_string());
        deep.writes("65,536 bytes", &call, &call.group);
        deep.refused("65,537 bytes", &sized(65_537 - rest), (4, 0));
    }
    for size in [65_537, 65_538, 70_000, 131_000] {
        deep.refused("zeros", &nested::call(tags(), vec![0x00; size]), (4, 0));
    }
}
