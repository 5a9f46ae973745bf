//! Elements that should measure themselves and do not (02, point 5): 9 on reading, 13 on writing, at their places.
use super::elements::{constant, from_to, measured, plan, triplet, Element};
use super::literals::{key, ITEM};
use crate::compare_calls::Calls;
use crate::generate::wire::{enclose, long_ber};
use crate::hex;

/// Sixteen bytes that are no key, one for each rule and each byte.
const NO_KEYS: [&str; 22] = [
    "070E2B34010101010102030405060708",
    "060F2B34010101010102030405060708",
    "060E2A34010101010102030405060708",
    "060E2B35010101010102030405060708",
    "060E2B34000101010102030405060708",
    "060E2B34800101010102030405060708",
    "060E2B34010001010102030405060708",
    "060E2B3401FF01010102030405060708",
    "060E2B34010100010102030405060708",
    "060E2B34010180010102030405060708",
    "060E2B34010101000102030405060708",
    "060E2B34010101800102030405060708",
    "060E2B34020601010102030405060708",
    "060E2B34010101018002030405060708",
    "060E2B34010101010180030405060708",
    "060E2B34010101010102030405060780",
    "060E2B34010101010102030405060781",
    "060E2B340101010101FFFFFFFFFFFFFF",
    "060E2B34010101010002030405060708",
    "060E2B34010101010100030000000000",
    "060E2B34010101010000000000000001",
    "00000000000000000000000000000000",
];

/// How many elements stand before the one that is refused.
pub const BEFORE: [usize; 3] = [0, 1, 4];

/// Measured and constant elements in turn.
pub fn good(count: usize) -> Vec<Element> {
    (0..count).map(|n| if n % 2 == 0 { measured(&triplet(n)) } else { constant(&[0xAB; 3]) }).collect()
}

/// The value is no element on writing, whatever stands before it and after it.
pub fn not_written(calls: &mut Calls, name: &str, value: &[u8]) {
    for before in BEFORE {
        let plan = plan(&[good(before), vec![measured(value)], good(2)].concat());
        for source in [0x01, 0x04, 0x53] {
            calls.regroup_is(name, &from_to(&plan, source, 0x05), Err((13, before as u64)));
        }
    }
}

/// The bytes begin with no element on reading, whatever stands before them; `after` says if anything may come after them.
fn not_read(calls: &mut Calls, name: &str, value: &[u8], after: bool) {
    for before in BEFORE {
        for rest in [0, 2].into_iter().filter(|rest| *rest == 0 || after) {
            let plan = plan(&[good(before), vec![measured(value)], good(rest)].concat());
            let call = from_to(&plan, 0x05, 0x01);
            calls.regroup_is(name, &call, Err((9, before as u64)));
            calls.listing_is(name, &call, Err((9, before as u64)));
        }
    }
}

/// Keys that are none, with a length and a value that would do, and alone.
pub fn keys(calls: &mut Calls, _seed: u64) {
    for digits in NO_KEYS {
        for value in [&[][..], &[0xAB, 0xCD]] {
            let element = enclose(&key(digits), value);
            not_read(calls, "no key inside", &element, true);
            not_written(calls, "no key inside", &element);
        }
        not_read(calls, "no key, and no more", &hex::bytes(digits), false);
    }
}

/// Every first byte of a malformed length, with bytes after it.
pub fn malformed(calls: &mut Calls, _seed: u64) {
    for first in [0x80].into_iter().chain(0x89..=0xFF) {
        malformed_length(calls, first);
    }
}

fn malformed_length(calls: &mut Calls, first: u8) {
    for more in [0, 1, 9, 12] {
        let element = [&key(ITEM)[..], &[first], &vec![0x00; more]].concat();
        not_read(calls, "a malformed length inside", &element, true);
        not_written(calls, "a malformed length inside", &element);
    }
}

/// Lengths that are malformed or cut off, or more than what is left.
pub fn lengths(calls: &mut Calls, _seed: u64) {
    for first in [0x80, 0x89, 0xFF] {
        malformed_length(calls, first);
    }
    for first in 0x81..=0x88 {
        for more in 0..first - 0x80 {
            let element = [&key(ITEM)[..], &[first], &vec![0x00; usize::from(more)]].concat();
            not_read(calls, "a length inside that is cut off", &element, false);
            not_written(calls, "a length inside that is cut off", &element);
        }
    }
    for length in [4, 0x0100_0003, 0x7FFF_FFFF, 0x8000_0000, 0xFFFF_FFFF, 0x1_0000_0003, u64::MAX >> 1] {
        too_long(calls, length);
    }
    for less in [0, 1, 3, 15, 16, 17, 24, 25, 26, 27, 28] {
        too_long(calls, u64::MAX - less);
    }
}

/// A length of 8 bytes before three bytes.
fn too_long(calls: &mut Calls, length: u64) {
    let element = [&key(ITEM)[..], &long_ber(length, 8), &[0xAB; 3]].concat();
    not_read(calls, "a length inside that is too large", &element, length > 1_000);
    not_written(calls, "a length inside that is too large", &element);
}
