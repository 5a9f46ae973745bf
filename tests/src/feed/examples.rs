//! Feeds of which the whole answer is said.
use super::build::{call, call_with, triplet};
use crate::calls::literals::{record, ITEM, PACK_04, PACK_05, SET_01, SET_03, SET_53, SET_63};
use crate::compare_feed::Feeds;
use crate::hex;

/// Another key, and one that differs from 01's group key in byte 8.
const FILL: &str = "060E2B34010101020301021001000000";
const VERSION_2: &str = "060E2B34020101020F01000000000000";

pub fn all(feeds: &mut Feeds, _seed: u64) {
    let tags = record(0x102, ITEM);
    let group = triplet(SET_01, &format!("{ITEM} 02 ABCD"));
    let written = hex::bytes(&format!("{SET_53} 06 0102 0002 ABCD"));
    let unlisted = triplet(SET_01, &format!("{FILL} 00"));
    let fill = triplet(FILL, "00 00 00");
    let near = triplet(VERSION_2, &format!("{ITEM} 02 ABCD"));
    let feed = |triplets: &[Vec<u8>]| call_with(&tags, "-", SET_01, SET_53, triplets);
    let mut writes = |name: &str, triplets: &[&Vec<u8>], images: &[&Vec<u8>], counts: [u64; 3]| {
        let triplets: Vec<Vec<u8>> = triplets.iter().map(|bytes| bytes.to_vec()).collect();
        let images: Vec<u8> = images.iter().flat_map(|bytes| bytes.iter()).copied().collect();
        feeds.writes(name, &feed(&triplets), &images, counts);
    };
    writes("01's job", &[&group], &[&written], [1, 0, 0]);
    writes("another key", &[&fill], &[&fill], [0, 0, 1]);
    writes("a key without a tag", &[&unlisted], &[&unlisted], [0, 1, 0]);
    writes("another version", &[&near], &[&near], [0, 0, 1]);
    writes("the target's key", &[&written], &[&written], [0, 0, 1]);
    let came = [&fill, &group, &unlisted, &near, &group, &written];
    writes("all sorts", &came, &[&fill, &written, &unlisted, &near, &written, &written], [2, 1, 3]);
    let back = call_with(&tags, "-", SET_53, SET_01, &[written.clone(), group.clone()]);
    feeds.writes("back", &back, &[group.clone(), group.clone()].concat(), [1, 0, 1]);
    let cut = feed(&[fill.clone(), group.clone(), fill[..18].to_vec()]);
    feeds.refused("a third triplet that is cut off", &cut, (21, 2));
    feeds.refused_in("too little room", &feed(&[fill, group]), 42, (15, 0));
}

/// Packs of an element that measures itself: a whole triplet, one with a byte more, and one that is cut off.
pub fn measured(feeds: &mut Feeds, _seed: u64) {
    let element = format!("{FILL} 02 ABCD");
    let came = [&element, &format!("{element} 00"), &format!("{FILL} 02 AB")].map(|value| triplet(PACK_05, value));
    let call = call_with("-", &record(u32::MAX, ITEM), PACK_05, SET_01, &came);
    let written = triplet(SET_01, &format!("{ITEM} 13 {element}"));
    feeds.writes("measured elements", &call, &[&written[..], &came[1], &came[2]].concat(), [1, 2, 0]);
}

/// The empty feed is accepted, whatever the room; all six numbers are 0.
pub fn empty(feeds: &mut Feeds, _seed: u64) {
    for (source, target) in [(SET_01, SET_03), (SET_03, SET_01), (PACK_04, SET_63), (SET_53, SET_53)] {
        for room in [0, 1, 16, 17, 100, 65_536] {
            let got = feeds.feed(&call(source, target, &[]), room);
            feeds.tally.equal(got, [0; 6], || format!("the empty feed with {room} bytes"));
        }
        feeds.writes("the empty feed", &call(source, target, &[]), &[], [0; 3]);
    }
    feeds.writes("the empty feed without tables", &call_with("-", "-", SET_01, SET_03, &[]), &[], [0; 3]);
}
