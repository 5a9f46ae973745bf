//! The index of the first bad triplet. The smallest triplets have 17 bytes, so that the largest index is 61,680.
use super::build::{call, other, triplet, NO_KEY};
use crate::calls::literals::{key, SET_01, SET_03};
use crate::compare_feed::Feeds;
use crate::generate::wire::wrap;
use crate::groups::{Key, MOST_FEED};

/// Bad triplets: a key that is cut off, lengths that are cut off, malformed and too long. The first and the second end the
/// feed.
fn bad(key: &Key) -> [Vec<u8>; 5] {
    let length = |bytes: &[u8]| wrap(key, bytes, &[0x00]);
    [key[..15].to_vec(), key.to_vec(), length(&[0x80]), length(&[0x89]), length(&[0x84, 0x7F, 0, 0])]
}

/// After 0 to 1,000 triplets of each sort.
pub fn few(feeds: &mut Feeds, _seed: u64) {
    for count in [0, 1, 2, 255, 256, 257, 1_000] {
        for front in [other(0), triplet(SET_03, "-"), triplet(SET_03, "08 00")] {
            for bad in bad(&key(SET_03)).into_iter().chain(bad(&NO_KEY)) {
                after(feeds, count, &front, &bad, 65_536);
            }
        }
    }
}

/// The feed is refused at the index; with a second bad triplet behind the first one too.
fn after(feeds: &mut Feeds, count: usize, front: &[u8], bad: &[u8], room: usize) {
    let whole = call(SET_03, SET_01, &[front.repeat(count), bad.to_vec()]);
    feeds.refused_in("a bad triplet", &whole, room, (21, count as u64));
    if bad.len() > 16 {
        let more = [&whole.feed[..], front, bad].concat();
        feeds.refused_in("two bad triplets", &whole.with_feed(more), room, (21, count as u64));
    }
}

/// As many triplets as 1 MiB holds, the last of them bad.
pub fn many(feeds: &mut Feeds, _seed: u64) {
    for count in [32_767, 32_768, 61_678, 61_679] {
        for front in [other(0), triplet(SET_03, "-")] {
            for bad in bad(&NO_KEY) {
                let whole = call(SET_03, SET_01, &[front.repeat(count), bad]);
                feeds.refused("a bad triplet", &whole, (21, count as u64));
            }
        }
    }
    let most = MOST_FEED / 17;
    for left in 1..=16 {
        let whole = call(SET_03, SET_01, &[other(0).repeat(most), vec![0x00; left]]);
        feeds.refused("the largest index", &whole, (21, most as u64));
    }
    feeds.counts("no bad triplet", &call(SET_03, SET_01, &[other(0).repeat(most)]), [0, 0, most as u64]);
}
