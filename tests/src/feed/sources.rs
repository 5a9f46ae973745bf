//! Which triplets have the source key: just those that agree with it in all sixteen bytes.
use super::build::{call, call_with, triplet, NO_KEY};
use crate::calls::literals::{key, record, ITEM, PACK_04, PACK_05, SET_01, SET_03, SET_23, SET_53};
use crate::compare_feed::Feeds;
use crate::generate::wire::{enclose, long_ber, wrap};
use crate::groups::Key;
use crate::hex;

/// Keys that differ from the source's in one bit, and in one byte; among them are many that are no keys.
pub fn near(feeds: &mut Feeds, _seed: u64) {
    let contents = hex::bytes("07 02 ABCD");
    for place in 0..16 {
        let bits = (0..8).map(|bit| 1 << bit);
        for change in bits.chain([0xFF, 0x81, 0x7F]) {
            let mut key: Key = key(SET_03);
            key[place] ^= change;
            let triplets = [enclose(&key, &contents), triplet(SET_03, "07 02 ABCD"), enclose(&key, &contents)];
            feeds.counts("a key near the source's", &call(SET_03, SET_01, &triplets), [1, 0, 2]);
        }
    }
}

/// Sixteen bytes of any kind as a triplet's key.
pub fn no_keys(feeds: &mut Feeds, _seed: u64) {
    let mut keys: Vec<Key> = [0x00, 0x06, 0x7F, 0x80, 0xFF].map(|byte| [byte; 16]).into();
    for (place, byte) in [(0, 0x07), (4, 0x00), (5, 0x80), (5, 0x06), (8, 0x80), (15, 0x81), (15, 0x01)] {
        let mut key = key(SET_03);
        key[place] = byte;
        keys.push(key);
    }
    let triplets: Vec<Vec<u8>> = keys.iter().map(|key| enclose(key, &[0x07, 0x00])).collect();
    for triplet in &triplets {
        feeds.writes("no key", &call(SET_03, SET_01, &[triplet.clone()]), triplet, [0, 0, 1]);
    }
    let others = triplets.len() as u64;
    feeds.writes("no keys", &call(SET_03, SET_01, &triplets), &triplets.concat(), [0, 0, others]);
}

/// Triplets that have the target's key, and groups of the source's family, go out as they came.
pub fn target(feeds: &mut Feeds, _seed: u64) {
    let item = format!("{ITEM} 8102 ABCD");
    for other in [SET_01, SET_53, PACK_04, PACK_05] {
        let triplets = [triplet(other, &item), triplet(SET_03, "07 00"), triplet(other, "-")];
        let output = [&triplets[0][..], &triplet(SET_01, &format!("{ITEM} 00")), &triplets[2]].concat();
        feeds.writes("another group", &call(SET_03, SET_01, &triplets), &output, [1, 0, 2]);
    }
}

/// With equal keys a triplet that reads is regrouped, which shortens its lengths; one that does not is refused.
pub fn equal(feeds: &mut Feeds, _seed: u64) {
    let triplets = [
        wrap(&key(SET_03), &long_ber(6, 4), &hex::bytes("07 82 0002 ABCD")),
        wrap(&key(SET_03), &long_ber(1, 2), &[0x07]),
        triplet(SET_03, "07 02 ABCD"),
        triplet(SET_03, "-"),
    ];
    let written = triplet(SET_03, "07 02 ABCD");
    let output = [&written[..], &triplets[1], &written, &triplets[3]].concat();
    feeds.writes("equal keys", &call(SET_03, SET_03, &triplets), &output, [3, 1, 0]);
    let packs = record(2, ITEM);
    let triplets = [triplet(PACK_05, "ABCD"), triplet(PACK_05, "AB"), enclose(&NO_KEY, &[])];
    let call = call_with("-", &packs, PACK_05, PACK_05, &triplets);
    feeds.writes("equal keys of packs", &call, &triplets.concat(), [1, 1, 1]);
}

/// With keys of two families every source triplet is refused, whatever is in it. A global set is of every family.
pub fn families(feeds: &mut Feeds, _seed: u64) {
    let triplets =
        [triplet(SET_03, "07 02 ABCD"), triplet(SET_03, "FF"), triplet(SET_23, "07 00"), triplet(SET_03, "-")];
    for (place, byte) in [(6, 0x02), (7, 0x02), (8, 0x0E), (9, 0x02), (10, 0x01)] {
        for byte_6 in [0x01, 0x03, 0x53, 0x04, 0x05] {
            let mut target = key(SET_03);
            target[5] = byte_6;
            target[place] = byte;
            let call = call(SET_03, &hex::text(&target), &triplets);
            feeds.writes("two families", &call, &triplets.concat(), [0, 3, 1]);
            feeds.refused_in("two families, a byte short", &call, call.feed.len() - 1, (15, 0));
        }
    }
    let global = "060E2B34020205020101010100000000";
    feeds.counts("a global target", &call(SET_03, global, &triplets), [2, 1, 1]);
    let global = triplet(global, "0F02 00 02 ABCD");
    let call = call(&hex::text(&global[..16]), SET_01, &[global, triplet(SET_03, "07 00")]);
    feeds.counts("a global source", &call, [1, 0, 1]);
}
