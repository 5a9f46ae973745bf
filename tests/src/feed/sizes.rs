//! Feeds of 1 MiB and more, source triplets of 65,536 bytes and one more, outputs over 65,536 bytes.
use super::build::{call, other, triplet, NO_KEY};
use crate::calls::literals::{key, ITEM, SET_01, SET_03};
use crate::compare_feed::Feeds;
use crate::feed_call::FeedCall;
use crate::generate::nested::{item, lengths, with_byte_6, SETS};
use crate::generate::wire::enclose;
use crate::groups::{MOST_BYTES, MOST_FEED};
use crate::hex;
use crate::numbers::Form;

/// Another triplet of this many bytes in all, which are more than 65,556.
fn other_of(size: usize) -> Vec<u8> {
    other(size - 20)
}

/// These triplets, and another one with which they have this many bytes in all.
fn filled_to(size: usize, triplets: &[Vec<u8>]) -> Vec<Vec<u8>> {
    let rest = size - triplets.concat().len();
    [triplets, &[other_of(rest)]].concat()
}

/// Just 1 MiB passes; with a byte more the place is 0, whatever the triplets are.
pub fn most(feeds: &mut Feeds, _seed: u64) {
    let set = triplet(SET_03, "07 00");
    let whole = |size: usize| call(SET_03, SET_01, &filled_to(size, &[set.clone()]));
    feeds.counts("1 MiB", &whole(MOST_FEED), [1, 0, 1]);
    feeds.refused("a byte more", &whole(MOST_FEED + 1), (21, 0));
    for size in [MOST_FEED, MOST_FEED + 1] {
        let mut feed = whole(size - 5).feed;
        feed.extend_from_slice(&[0x00; 5]);
        let place = if size == MOST_FEED { 2 } else { 0 };
        feeds.refused("with a triplet that is cut off", &whole(size).with_feed(feed), (21, place));
    }
}

/// 1 MiB of triplets of 17 bytes and one of 33: others, regrouped, refused, and all of these in turn.
pub fn sorts(feeds: &mut Feeds, _seed: u64) {
    let sources = [triplet(SET_01, "-"), triplet(SET_01, &format!("{ITEM} 00"))];
    let others = enclose(&NO_KEY, &[0x00; 16]);
    let count = MOST_FEED / 17 - 1;
    for (front, target, counts) in [
        (other(0), SET_03, [0, 0, 1]),
        (sources[0].clone(), SET_03, [1, 0, 0]),
        (sources[0].clone(), "060E2B34020301010F02000000000000", [0, 1, 0]),
    ] {
        let whole = call(SET_01, target, &[front.repeat(count), others.clone()]);
        feeds.tally.equal(whole.feed.len(), MOST_FEED, || "the feed's length".to_string());
        let counts = [counts[0] * count as u64, counts[1] * count as u64, counts[2] * count as u64 + 1];
        feeds.counts("1 MiB", &whole, counts);
    }
    let turn = [sources[1].clone(), other(1), triplet(SET_01, "00"), sources[0].clone()].concat();
    let turns = (MOST_FEED - 70_000) / turn.len();
    let triplets = filled_to(MOST_FEED, &[turn.repeat(turns)]);
    let turns = turns as u64;
    feeds.counts("1 MiB in turn", &call(SET_01, SET_03, &triplets), [2 * turns, turns, turns + 1]);
}

/// More than 1 MiB, with good tables and keys and with bad ones, which are refused first.
pub fn over(feeds: &mut Feeds, _seed: u64) {
    let good = call(SET_03, SET_01, &[]);
    for size in [MOST_FEED + 1, MOST_FEED + 2, MOST_FEED + 17, MOST_FEED + 15_000] {
        for feed in [other_of(size), vec![0x00; size], vec![0xFF; size]] {
            let call = good.with_feed(feed);
            feeds.refused("more than 1 MiB", &call, (21, 0));
            feeds.refused_in("more than 1 MiB without room", &call, 0, (21, 0));
            feeds.refused("a source key", &FeedCall { source: vec![0x06; 16], ..call.clone() }, (5, 0));
            feeds.refused("a target key", &FeedCall { target: vec![0x06; 15], ..call.clone() }, (3, 0));
            feeds.refused("a pack table", &FeedCall { packs: vec![0x06; 20], ..call.clone() }, (2, 0));
            feeds.refused("a tag table", &FeedCall { tags: vec![0x06; 19], ..call }, (1, 0));
        }
    }
    for size in [MOST_FEED - 1, MOST_FEED] {
        feeds.counts("no more than 1 MiB", &good.with_feed(other_of(size)), [0, 0, 1]);
        feeds.refused_in("a byte short", &good.with_feed(other_of(size)), size - 1, (15, 0));
        feeds.refused("bad", &good.with_feed(vec![0xFF; size]), (21, 0));
    }
}

/// Universal sets of 65,535 to 65,537 bytes, to universal and local sets: one that is too long goes out as it came.
pub fn sources(feeds: &mut Feeds, _seed: u64) {
    let sized = |length: usize| enclose(&key(SET_01), &item(0x01, &(7, key(ITEM)), &vec![0xAB; length]));
    let rest = sized(0x8000).len() - 0x8000;
    for target in [SET_01, SET_03] {
        for size in [MOST_BYTES - 1, MOST_BYTES, MOST_BYTES + 1, MOST_BYTES + 2] {
            let set = sized(size - rest);
            feeds.tally.equal(set.len(), size, || "the triplet's length".to_string());
            let counts = if size <= MOST_BYTES { [1, 0, 2] } else { [0, 1, 2] };
            feeds.counts("a long source triplet", &call(SET_01, target, &[other(2), set, other(3)]), counts);
        }
    }
    long_images(feeds, 0x03);
}

/// The same of every set that takes values so long.
pub fn images(feeds: &mut Feeds, _seed: u64) {
    for byte in SETS.into_iter().filter(|byte| *byte != 0x01 && lengths(*byte) != Form::One) {
        long_images(feeds, byte);
        long_sets(feeds, byte);
    }
}

/// Sets of this byte 6 with 65,536 bytes, which are regrouped to themselves, and with more: with 4 they go out as they came.
fn long_sets(feeds: &mut Feeds, byte: u8) {
    let source = with_byte_6(&key(SET_03), byte);
    let set = |length: usize| enclose(&source, &item(byte, &(7, key(ITEM)), &vec![0xAB; length]));
    let rest = set(0x8000).len() - 0x8000;
    let digits = hex::text(&source);
    for size in [MOST_BYTES, MOST_BYTES + 1, MOST_BYTES + 2] {
        let counts = if size <= MOST_BYTES { [1, 0, 1] } else { [0, 1, 1] };
        feeds.counts("a long set", &call(&digits, &digits, &[set(size - rest), other(1)]), counts);
    }
}

/// Local sets of this byte 6 to universal ones, of 65,535 bytes to some more: with 14 they go out as they came.
fn long_images(feeds: &mut Feeds, byte: u8) {
    let source = with_byte_6(&key(SET_03), byte);
    let set = |length: usize| enclose(&source, &item(byte, &(7, key(ITEM)), &vec![0xAB; length]));
    let rest = 16 + 3 + 16 + 3;
    for size in [MOST_BYTES - 1, MOST_BYTES, MOST_BYTES + 1, MOST_BYTES + 2] {
        let counts = if size <= MOST_BYTES { [2, 0, 1] } else { [0, 2, 1] };
        let triplets = [set(size - rest), other(1), set(size - rest)];
        feeds.counts("a long image", &call(&hex::text(&source), SET_01, &triplets), counts);
    }
}

/// Outputs of 65,535 bytes to some more: of one other triplet, of two regrouped ones, of many.
pub fn outputs(feeds: &mut Feeds, _seed: u64) {
    for size in [65_535, 65_536, 65_537, 131_072, 131_073] {
        let rest = size - 200;
        feeds.counts("others", &call(SET_03, SET_01, &[other(200 - 18), other(rest - 20)]), [0, 0, 2]);
    }
    let long = triplet(SET_03, &format!("07 82 9C40 {}", "AB".repeat(40_000)));
    let small = triplet(SET_03, "07 00");
    feeds.counts("two long sets", &call(SET_03, SET_01, &[long.clone(), other(1), long]), [2, 0, 1]);
    feeds.counts("many sets", &call(SET_03, SET_01, &[small.repeat(2_000)]), [2_000, 0, 0]);
}
