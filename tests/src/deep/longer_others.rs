//! Longer forms of the outer length and inside groups that stay bytes, which are not counted, and many longer items.
use super::build::{call, chain, other, outermost, set, tags, PLAIN};
use super::longer::item_of;
use crate::compare_deep::Deep;
use crate::generate::nested::{self, lengths, OTHERS, SETS};
use crate::generate::wire::{long_ber, wrap};
use crate::numbers::Form;

/// A longer outer length alone; 256 sets of one item, and one set of 255, all of them longer than needed.
pub fn outer_and_many(deep: &mut Deep, _seed: u64) {
    for byte in SETS {
        let contents = chain(&[byte; 4], &nested::item(byte, &PLAIN, &[0xAB]));
        for count in 2..=8 {
            let group = wrap(&outermost(byte), &long_ber(contents.len() as u64, count), &contents);
            deep.longer_is("a longer outer length", &nested::call(tags(), group), Ok(0));
        }
        let counted = |count: u64| if lengths(byte) == Form::Ber { count } else { 0 };
        let plain = item_of(byte, &PLAIN, &[0xAB], true);
        let many = item_of(byte, &set(byte), &plain, true).repeat(256);
        deep.longer_is("256 sets of one item", &call(byte, &many), Ok(counted(512)));
        if ![0x23, 0x2B, 0x33, 0x3B].contains(&byte) {
            let one = item_of(byte, &set(byte), &plain.repeat(255), true);
            deep.longer_is("a set of 255 items", &call(byte, &one), Ok(counted(256)));
        }
    }
}

/// Global sets and packs at depths 1 to 4: their own length counts, lengths inside them do not.
pub fn carried(deep: &mut Deep, _seed: u64) {
    let values: [&[u8]; 4] =
        [&[0x05, 0x00, 0x81, 0x01, 0xAB], &[0x84, 0, 0, 0, 1, 0xAB], &[0x07, 0x81, 0x01, 0xAB], &[0x81, 0x00]];
    for byte in [0x01, 0x03, 0x53, 0x7B] {
        for group in OTHERS {
            for depth in 1..=4 {
                for value in values {
                    for longer in [false, true] {
                        let item = item_of(byte, &other(group), value, longer);
                        let call = call(byte, &chain(&vec![byte; depth], &item));
                        let expected = u64::from(longer && lengths(byte) == Form::Ber);
                        deep.longer_is(&format!("{group:02X} at depth {depth}"), &call, Ok(expected));
                    }
                }
            }
        }
    }
}
