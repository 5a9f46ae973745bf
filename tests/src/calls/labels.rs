//! Labels that are cut off (8), malformed (19) or not listed (20), in every kind (02, point 2), held to the answers that
//! the two papers give: the regrouping call's, and the listing's, which are the same.
use super::literals::{call, key, record, ITEM, SET_01};
use crate::compare_calls::Calls;
use crate::generate::wire::{enclose, fixed, shortest_ber, tag_bytes};
use crate::groups::kind::{Sort, SORTS};
use crate::hex;
use crate::literal::Refused;
use crate::numbers::Form;

/// How many good items stand before the one that is refused.
const BEFORE: [usize; 3] = [0, 1, 255];

/// A group under a table that lists the item of 01's job with tag 7 or, if it is a pack, with an element of two bytes.
fn refused(calls: &mut Calls, name: &str, group_key: &str, contents: &[u8], refused: Refused) {
    let group = hex::text(&enclose(&key(group_key), contents));
    let call = call(&record(7, ITEM), &record(2, ITEM), SET_01, &group);
    calls.regroup_is(name, &call, Err(refused));
    calls.listing_is(name, &call, Err(refused));
}

/// The same after good items.
fn label(calls: &mut Calls, name: &str, group_key: &str, good: &[u8], label: &[u8], number: u64) {
    for count in BEFORE {
        let contents = [&good.repeat(count), label].concat();
        refused(calls, name, group_key, &contents, (number, count as u64));
    }
}

/// Item keys: every cut, of a key and of bytes that no key begins with; and sixteen bytes that are no key.
pub fn keys(calls: &mut Calls, _seed: u64) {
    let good = hex::bytes(&format!("{ITEM} 00"));
    for digits in [
        ITEM,
        "070E2B34010101010F02000000000000",
        "060E2B35010101010F02000000000000",
        "060E2B34020601010F02000000000000",
        "060E2B34010101018002000000000000",
        "00000000000000000000000000000000",
        "80808080808080808080808080808080",
        "FFFFFFFFFFFFFFFFFFFFFFFFFFFFFFFF",
    ] {
        let bytes = hex::bytes(digits);
        for length in 1..16 {
            label(calls, "a key that is cut off", SET_01, &good, &bytes[..length], 8);
        }
        let rests = [vec![], vec![0x00], vec![0x80], vec![0x05, 0xAB]];
        for rest in rests.iter().filter(|_| digits != ITEM) {
            let whole = [&bytes[..], rest].concat();
            label(calls, "sixteen bytes that are no key", SET_01, &good, &whole, 19);
        }
    }
    for (place, byte) in [(4, 0x00), (4, 0x80), (5, 0x00), (6, 0xFF), (7, 0x00), (8, 0x80), (11, 0x01), (15, 0x81)] {
        let mut bytes = hex::bytes(ITEM);
        bytes[place] = byte;
        label(calls, "a key with one byte changed", SET_01, &good, &bytes, 19);
    }
}

/// The four global sets of 01's example, whose root is 06 0E 2B 34 01 01 01 02 03; and of a root that no key begins with.
pub fn global_tags(calls: &mut Calls, _seed: u64) {
    for (byte, _, lengths) in SORTS.into_iter().filter(|(_, sort, _)| *sort == Sort::Global) {
        let set = format!("060E2B3402{byte:02X}05010101010203000000");
        let none = format!("060E2B3402{byte:02X}02010101010203000000");
        let good = [&[0x05, 0x00][..], &no_bytes(lengths)].concat();
        for tag in ["05", "81", "81 00", "05 06 07 08 09 0A 0B"] {
            label(calls, "a global tag that is cut off", &set, &good, &hex::bytes(tag), 8);
            refused(calls, "the same under another root", &none, &hex::bytes(tag), (8, 0));
        }
        for tag in [
            "80",
            "80 05",
            "05 80 80",
            "05 06 07 08 09 0A 0B 0C",
            "05 05 05 05 05 05 05 05 05 05 05",
            "FF FF FF FF FF FF FF FF FF FF FF",
        ] {
            label(calls, "a global tag that is cut off and malformed", &set, &good, &hex::bytes(tag), 8);
        }
        for tag in [
            "00",
            "00 05 00",
            "80 05 00",
            "05 80 00 00",
            "05 06 07 08 09 0A 0B 0C 00",
            "05 06 07 08 09 0A 81 00 00",
            "05 06 07 08 09 0A 0B 0C 0D 0E 0F 10",
            "81 81 81 81 81 81 81 81 81 81 81 81",
        ] {
            label(calls, "a global tag that is malformed", &set, &good, &hex::bytes(tag), 19);
            let whole = [&hex::bytes(tag), &no_bytes(lengths)[..]].concat();
            label(calls, "the same with a length", &set, &good, &whole, 19);
        }
        refused(calls, "a tag whose join is no key", &none, &[0x05, 0x00], (19, 0));
        refused(calls, "the same with a length", &none, &[&[0x05, 0x00], &no_bytes(lengths)[..]].concat(), (19, 0));
    }
}

/// The sixteen local sets: every cut of a tag, words that are malformed, and tags that the table has not.
pub fn local_tags(calls: &mut Calls, _seed: u64) {
    for (byte, sort, lengths) in SORTS {
        let Sort::Local(form) = sort else {
            continue;
        };
        let set = format!("060E2B3402{byte:02X}01010F01000000000000");
        let empty = no_bytes(lengths);
        let good = [&tag_bytes(form, 7)[..], &empty].concat();
        let unlisted = tag_bytes(form, 8);
        for rest in [vec![], empty.clone(), vec![0x80], vec![0xFF; 4]] {
            label(calls, "a tag that is not listed", &set, &good, &[&unlisted[..], &rest].concat(), 20);
        }
        for length in 1..unlisted.len() {
            label(calls, "a tag that is cut off", &set, &good, &unlisted[..length], 8);
        }
        if form == Form::Word {
            words(calls, &set, &good, &empty);
        }
    }
}

/// BER words: three bytes of 80 or more are cut off where no byte follows; a first byte 80 and a fourth byte of 80 or
/// more are malformed there too.
fn words(calls: &mut Calls, set: &str, good: &[u8], empty: &[u8]) {
    for word in ["81", "FF", "81 80", "81 82 83", "FF FF FF"] {
        label(calls, "a word that is cut off", set, good, &hex::bytes(word), 8);
    }
    for word in ["80", "80 07", "80 80 80 80", "81 82 83 84", "FF FF FF FF", "81 80 80 80 07"] {
        label(calls, "a word that is malformed", set, good, &hex::bytes(word), 19);
        let whole = [&hex::bytes(word), empty].concat();
        label(calls, "the same with a length", set, good, &whole, 19);
    }
    for word in ["08", "81 07", "FF FF FF 7F"] {
        label(calls, "a word that is not listed", set, good, &hex::bytes(word), 20);
    }
}

/// Elements have no label: whatever is missing is 9, and whatever is left 11.
pub fn elements(calls: &mut Calls, _seed: u64) {
    for (byte, sort, lengths) in SORTS {
        let pack = format!("060E2B3402{byte:02X}01010F01000000000000");
        if !matches!(sort, Sort::VariablePack | Sort::DefinedPack) {
            continue;
        }
        let whole = [lengths.map_or(vec![], |form| length_of(form, 2)), vec![0x80, 0xFF]].concat();
        for length in 0..whole.len() {
            refused(calls, "an element that is cut off", &pack, &whole[..length], (9, 0));
        }
        refused(calls, "a byte after the last element", &pack, &[&whole[..], &[0x80]].concat(), (11, 1));
    }
}

/// The length of an empty value.
fn no_bytes(lengths: Option<Form>) -> Vec<u8> {
    lengths.map_or(vec![], |form| length_of(form, 0))
}

fn length_of(form: Form, length: u64) -> Vec<u8> {
    if form == Form::Ber {
        return shortest_ber(length);
    }
    fixed(form, length)
}
