//! Items that stay bytes: global sets, packs and what is no group, whatever their values are.
use super::build::{call, chain, inside, other, PLACE};
use crate::compare_deep::Deep;
use crate::generate::nested::{item, OTHERS, SETS};
use crate::groups::Key;

/// Values that no set has as its items.
const UNREAD: [&[u8]; 4] = [&[0xFF], &[0x7E, 0x00], &[0x07], &[0x80, 0x80, 0x80, 0x80, 0x80]];

/// Global sets and packs at depths 1 to 4, which also at depth 4 are no sets at depth 5.
pub fn groups(deep: &mut Deep, _seed: u64) {
    for byte in SETS {
        for group in OTHERS {
            for depth in 1..=4 {
                let sets = vec![byte; depth];
                for value in UNREAD.into_iter().chain([&[][..], &[0x07, 0x00], &[0x05, 0x00, 0x00]]) {
                    let contents = chain(&sets, &item(byte, &other(group), value));
                    deep.accepted(&format!("{group:02X} at depth {depth}"), &call(byte, &contents));
                }
            }
        }
    }
}

/// An item of a universal set with this key.
fn universal(key: Key, value: &[u8]) -> Vec<u8> {
    item(0x01, &(0, key), value)
}

/// Every byte 6 that is a key's: only that of a universal or local set is opened.
pub fn byte_6(deep: &mut Deep, _seed: u64) {
    for byte in (0x01..=0x7F).filter(|byte| *byte != 0x06) {
        for value in UNREAD {
            known(deep, inside(byte), value, SETS.contains(&byte));
        }
    }
}

/// Global sets with roots of every length, and keys that are those of no global set.
pub fn roots(deep: &mut Deep, _seed: u64) {
    for byte in [0x02, 0x22, 0x42, 0x62] {
        for byte_7 in 0x01..=0x0B {
            for words in 0..=8 {
                let mut key = inside(byte);
                key[6] = byte_7;
                key[8..].fill(0x00);
                key[8..8 + words].fill(0x01);
                known(deep, key, &[0x05, 0x00, 0x00], false);
            }
        }
    }
}

/// Every byte 5 that is a key's: only 02 is that of a group.
pub fn byte_5(deep: &mut Deep, _seed: u64) {
    for byte in 0x01..=0x7F {
        for set in [0x01, 0x03, 0x53, 0x7B] {
            let mut key = inside(set);
            key[4] = byte;
            known(deep, key, UNREAD[0], byte == 0x02);
        }
    }
}

/// Keys with words 81 00, and with 06 in byte 6, which only category 02 reserves.
pub fn words(deep: &mut Deep, _seed: u64) {
    for (byte_5, byte_6) in [(0x01, 0x01), (0x01, 0x06), (0x02, 0x05), (0x02, 0x03), (0x02, 0x01)] {
        let mut key = inside(byte_6);
        key[4] = byte_5;
        key[8..12].copy_from_slice(&[0x0F, 0x81, 0x00, 0x05]);
        known(deep, key, UNREAD[0], byte_5 == 0x02 && SETS.contains(&byte_6));
    }
}

/// An item whose value no set has: refused where it is opened, at depths 1 and 3.
fn known(deep: &mut Deep, key: Key, value: &[u8], opened: bool) {
    let name = format!("{key:02X?} {value:02X?}");
    for depth in [1, 3] {
        let call = call(0x01, &chain(&vec![0x01; depth], &universal(key, value)));
        match opened {
            true if depth == 1 => deep.refused(&name, &call, (18, 0)),
            true => deep.refused(&name, &call, (18, PLACE)),
            false => deep.accepted(&name, &call),
        }
    }
}

/// A whole group as the value of an item: a nested set's value is its items, without key and length again.
pub fn whole_groups(deep: &mut Deep, _seed: u64) {
    for byte in SETS {
        let whole = call(byte, &chain(&[byte; 2], &[])).group;
        let inside = call(byte, &chain(&[byte; 2], &whole));
        if byte == 0x01 {
            deep.accepted("a whole group in a universal set is an item of it", &inside);
        } else {
            deep.refused("a whole group in a set", &inside, (18, PLACE));
        }
        let bytes = item(byte, &other(0x05), &whole);
        deep.accepted("a whole group in a pack", &call(byte, &bytes));
    }
}
