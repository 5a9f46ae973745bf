//! A refused deep listing leaves the number of longer forms, whatever stands before what is refused.
use super::build::{call, chain, outermost, set, tags, PLAIN, UNLISTED};
use super::longer::item_of;
use crate::compare_deep::{count_of, Deep};
use crate::generate::nested::{self, item, label};
use crate::generate::wire::enclose;
use crate::hex;

/// Refusals 1, 4, 5, 7 to 10 and 17 to 20, each behind an item that is longer than needed.
pub fn all(deep: &mut Deep, _seed: u64) {
    for byte in [0x01, 0x0B] {
        let longer = item_of(byte, &PLAIN, &[0xAB], true);
        let after = |more: &[u8]| call(byte, &[&longer[..], more].concat());
        deep.longer_is("nothing is refused", &after(&[]), Ok(1));
        deep.longer_is("1", &nested::call(vec![0x00], after(&[]).group), Err((1, 0)));
        deep.longer_is("4", &after(&vec![0x00; 65_536]), Err((4, 0)));
        deep.longer_is("5", &nested::call(tags(), enclose(&outermost(0x05), &longer)), Err((5, 0)));
        deep.longer_is("7", &nested::call(tags(), [after(&[]).group, vec![0x00]].concat()), Err((7, 0)));
        deep.longer_is("8", &after(&[0x81]), Err((8, 1)));
        deep.longer_is("9", &after(&label(byte, &PLAIN)), Err((9, 1)));
        deep.longer_is("10", &call(byte, &longer.repeat(257)), Err((10, 256)));
        let deepest = item(byte, &set(byte), &chain(&[byte; 4], &[]));
        deep.longer_is("17", &after(&deepest), Err((17, 1)));
        for value in [&hex::bytes("07 81 01 AB 07")[..], &[0x80; 16], &longer.repeat(257)] {
            deep.longer_is("18", &after(&item_of(byte, &set(0x03), value, true)), Err((18, 1)));
        }
        deep.longer_is("19", &after(&[0x80; 16]), Err((19, 1)));
    }
    let longer = item_of(0x03, &PLAIN, &[0xAB], true);
    let unlisted = [longer, vec![UNLISTED as u8, 0x00]].concat();
    deep.longer_is("20", &call(0x03, &unlisted), Err((20, 1)));
}

/// Slices that are too short by one or more, and just long enough.
pub fn short_slices(deep: &mut Deep, _seed: u64) {
    for depth in 1..=4 {
        let call = call(0x03, &chain(&vec![0x03; depth], &item_of(0x03, &PLAIN, &[0xAB], true).repeat(2)));
        let count = count_of(&call).unwrap_or(0);
        for keys in [0, 16 * count - 1, 16 * count, 16 * count + 1] {
            for numbers in [0, 2 * count, 3 * count - 1, 3 * count, 3 * count + 1] {
                let enough = keys >= 16 * count && numbers >= 3 * count;
                let expected = if enough { Ok(2) } else { Err((15, 0)) };
                deep.longer_with(&format!("{keys} bytes, {numbers} numbers"), &call, [keys, numbers], expected);
            }
        }
    }
}
