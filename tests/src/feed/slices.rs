//! Lengths of the output slice: just enough, one less, more, none.
use super::build::{call, other, triplet};
use crate::calls::literals::{SET_01, SET_03};
use crate::compare_feed::{needed, Feeds};
use crate::feed_call::FeedCall;

/// Outputs that are longer than the feed, shorter, and as long.
fn calls() -> Vec<FeedCall> {
    let set = triplet(SET_03, "07 02 ABCD 07 00");
    let unlisted = triplet(SET_03, "08 00");
    let universal = triplet(SET_01, "060E2B34010101010F02000000000000 02 ABCD");
    vec![
        call(SET_03, SET_01, &[set.clone()]),
        call(SET_03, SET_01, &[set.clone(), other(3), unlisted.clone(), set.clone()]),
        call(SET_03, SET_01, &[other(0)]),
        call(SET_03, SET_01, &[unlisted.clone()]),
        call(SET_03, SET_01, &[unlisted, set.clone(), other(130)]),
        call(SET_01, SET_03, &[universal.clone(), other(5)]),
        call(SET_01, SET_03, &[universal.clone(), universal]),
        call(SET_03, SET_03, &[set.clone(), set]),
    ]
}

/// The call is accepted just if there is room enough; else it gives 15, and the slice is as it was.
fn ends(feeds: &mut Feeds, call: &FeedCall, needed: usize, room: usize) {
    let [length, _, _, _, number, place] = feeds.feed(call, room);
    let expected = if room >= needed { (needed as u64, 0, 0) } else { (0, 15, 0) };
    feeds.tally.equal((length, number, place), expected, || format!("{room} bytes for {needed}: {}", call.text()));
}

pub fn all(feeds: &mut Feeds, _seed: u64) {
    for call in calls() {
        let needed = needed(&call).unwrap_or(0);
        for room in [0, 1, 15, 16, needed - 2, needed - 1, needed, needed + 1, needed + 63, 65_536, 70_000] {
            ends(feeds, &call, needed, room);
        }
    }
}

pub fn every(feeds: &mut Feeds, _seed: u64) {
    for call in calls() {
        let needed = needed(&call).unwrap_or(0);
        for room in 0..needed + 20 {
            ends(feeds, &call, needed, room);
        }
    }
}
