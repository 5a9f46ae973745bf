//! The order of the refusals: 1, 2, 3, 5, 21 for the size, 21 for a triplet, 15. Feeds that break several rules are held to
//! the first of them.
use super::build::{call, other, triplet};
use crate::calls::literals::{SET_01, SET_03};
use crate::compare_feed::{needed, Feeds};
use crate::feed_call::FeedCall;
use crate::generate::wire::enclose;
use crate::groups::MOST_FEED;
use crate::literal::Refused;

/// The refusals of the rules, by their bits. The size comes before the triplets.
const RULES: [Refused; 7] = [(1, 0), (2, 0), (3, 0), (5, 0), (21, 0), (21, 2), (15, 0)];
const SIZE: usize = 4;
const TRIPLET: usize = 5;
const SLICE: usize = 6;

/// In how many ways each rule is broken.
const WAYS: usize = 3;

/// Every set of rules; with feeds of more than 1 MiB only pairs of them, in one way.
pub fn all(feeds: &mut Feeds, _seed: u64) {
    for bits in 1_usize..1 << RULES.len() {
        let first = bits.trailing_zeros() as usize;
        let long = bits >> SIZE & 1 == 1;
        if long && bits.count_ones() > 2 {
            continue;
        }
        for way in 0..if long { 1 } else { WAYS } {
            let call = broken(bits, way);
            let room = room(&call, bits >> SLICE & 1 == 1, way);
            feeds.refused_in(&format!("rules {bits:07b}, way {way}"), &call, room, RULES[first]);
        }
    }
}

/// A feed that breaks those rules whose bits are set.
fn broken(bits: usize, way: usize) -> FeedCall {
    let breaks = |rule: usize| bits >> rule & 1 == 1;
    let mut call = call(SET_03, SET_01, &[triplet(SET_03, "07 02 ABCD"), other(2)]);
    if breaks(0) {
        break_table(&mut call.tags, way);
    }
    if breaks(1) {
        call.packs = call.tags[..20].to_vec();
        break_table(&mut call.packs, way);
    }
    if breaks(2) {
        break_key(&mut call.target, way);
    }
    if breaks(3) {
        break_key(&mut call.source, way);
    }
    if breaks(TRIPLET) {
        let bad = [&[0x06; 16][..], &[[0x80], [0x81], [0x02]][way], &[0x00]].concat();
        call.feed.extend_from_slice(&bad[..bad.len() - usize::from(way == 1)]);
    }
    if breaks(SIZE) {
        let rest = MOST_FEED + 1 - 20 - call.feed.len();
        call.feed = [enclose(&[0x07; 16], &vec![0x00; rest]), call.feed].concat();
    }
    call
}

/// Not whole records, a key that is none, or one with a wrong byte 8.
fn break_table(table: &mut Vec<u8>, way: usize) {
    match way {
        0 => table.push(0x00),
        1 => table[4] = 0x07,
        _ => table[11] = 0x80,
    }
}

/// Too few bytes, no key, or no group.
fn break_key(key: &mut Vec<u8>, way: usize) {
    match way {
        0 => drop(key.pop()),
        1 => key[0] = 0x07,
        _ => key[4] = 0x01,
    }
}

/// Room for everything, or too little: none, one byte, or one byte less than is needed.
fn room(call: &FeedCall, short: bool, way: usize) -> usize {
    match way {
        _ if !short => call.feed.len() + 100,
        2 => needed(call).map_or(40, |needed| needed - 1),
        way => way,
    }
}

/// 15 comes after a bad triplet, whatever the room, and after all that refuses triplets.
pub fn late(feeds: &mut Feeds, _seed: u64) {
    let good = triplet(SET_03, "07 02 ABCD");
    let unlisted = triplet(SET_03, "08 00");
    for triplets in [vec![good.clone()], vec![good.clone(), unlisted.clone()], vec![unlisted, other(9), good]] {
        let whole = call(SET_03, SET_01, &triplets);
        let needed = needed(&whole).unwrap_or(0);
        let bad = [&whole.feed[..], &[0x00; 16]].concat();
        for room in [0, 1, 17, needed - 1] {
            feeds.refused_in("15", &whole, room, (15, 0));
        }
        for room in [0, 1, 17, needed - 1, needed, needed + 16, needed + 100] {
            feeds.refused_in("21 before 15", &whole.with_feed(bad.clone()), room, (21, triplets.len() as u64));
        }
    }
}
