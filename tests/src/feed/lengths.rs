//! BER lengths of triplets: malformed ones, those of too many bytes, and longer forms, which go out as they came.
use super::build::{call, other, triplet, NO_KEY};
use crate::calls::literals::{key, SET_01, SET_03};
use crate::compare_feed::Feeds;
use crate::feed_call::FeedCall;
use crate::generate::wire::{long_ber, shortest_ber, wrap};
use crate::hex;

/// A feed with this triplet in the middle.
fn around(middle: &[u8]) -> FeedCall {
    call(SET_03, SET_01, &[other(1), middle.to_vec(), triplet(SET_03, "07 00"), other(30)])
}

/// Every first byte that is malformed, and lengths of up to 2^64 - 1, of the source's key and of another.
pub fn bad(feeds: &mut Feeds, _seed: u64) {
    for key in [NO_KEY, key(SET_03)] {
        for first in [0x80].into_iter().chain(0x89..=0xFF) {
            let length = [&[first][..], &[0x00; 9]].concat();
            feeds.refused("a malformed length", &around(&wrap(&key, &length, &[])), (21, 1));
        }
        for length in [u64::MAX, u64::MAX - 24, u64::MAX - 25, 1 << 63, 1 << 32, 1 << 31, 1 << 20, 100_000] {
            feeds.refused("a long value", &around(&wrap(&key, &long_ber(length, 8), &[0xAB])), (21, 1));
        }
        for count in 1..=8 {
            let length = [&[0x80 + count][..], &vec![0xFF; usize::from(count)]].concat();
            feeds.refused("all bits set", &around(&wrap(&key, &length, &[])), (21, 1));
            feeds.refused("all bits set, last", &call(SET_03, SET_01, &[wrap(&key, &length, &[])]), (21, 0));
        }
        feeds.refused(
            "2^32 and 2 in its low bytes",
            &around(&wrap(&key, &long_ber((1 << 32) + 2, 8), &[7, 0])),
            (21, 1),
        );
    }
}

/// Lengths that end at every byte, after 0 to 2 good triplets.
pub fn cut_off(feeds: &mut Feeds, _seed: u64) {
    for before in 0..=2 {
        for key in [NO_KEY, key(SET_03)] {
            for first in 0x80..=0x8A {
                for count in 0..usize::from(first & 0x0F).min(9) {
                    let length = [&[first][..], &vec![0x00; count]].concat();
                    let mut triplets = vec![other(2); before];
                    triplets.push(wrap(&key, &length, &[]));
                    feeds.refused("a length that is cut off", &call(SET_03, SET_01, &triplets), (21, before as u64));
                }
            }
        }
    }
}

/// The last value ends with the feed, a byte earlier and a byte later.
pub fn borders(feeds: &mut Feeds, _seed: u64) {
    for length in [0, 1, 2, 126, 127, 128, 255, 256, 257, 65_535, 65_536] {
        for width in shortest_ber(length).len() - 1..=8 {
            let form = |n: u64| if width == 0 { vec![n as u8] } else { long_ber(n, width) };
            let lent = |n: u64| {
                let last = wrap(&NO_KEY, &form(n), &vec![0xAB; length as usize]);
                call(SET_03, SET_01, &[triplet(SET_03, "07 00"), last])
            };
            feeds.counts("a value up to the end", &lent(length), [1, 0, 1]);
            if width > 0 && shortest_ber(length + 1).len() <= width + 1 {
                feeds.refused("a value past the end", &lent(length + 1), (21, 1));
            }
            if length > 0 {
                feeds.refused("a byte after the last value", &lent(length - 1), (21, 2));
            }
        }
    }
}

/// Longer forms of a regrouped triplet's length are shortened; those of refused ones and of others are kept.
pub fn longer(feeds: &mut Feeds, _seed: u64) {
    let written = triplet(SET_01, "060E2B34010101010F02000000000000 02 ABCD");
    for count in 1..=8 {
        let regrouped = wrap(&key(SET_03), &long_ber(4, count), &[0x07, 0x02, 0xAB, 0xCD]);
        let inside = wrap(&key(SET_03), &long_ber(6, count), &hex::bytes("07 82 0002 ABCD"));
        let refused = wrap(&key(SET_03), &long_ber(2, count), &[0x08, 0x00]);
        let other = wrap(&NO_KEY, &long_ber(3, count), &[1, 2, 3]);
        let all = call(SET_03, SET_01, &[regrouped, refused.clone(), other.clone(), inside]);
        let output = [&written[..], &refused, &other, &written].concat();
        feeds.writes("longer lengths", &all, &output, [2, 1, 1]);
        feeds.writes("a longer length of a refused triplet", &all.with_feed(refused.clone()), &refused, [0, 1, 0]);
        feeds.writes("a longer length of another triplet", &all.with_feed(other.clone()), &other, [0, 0, 1]);
    }
}

/// The same of longer values, whose shortest form has two to four bytes.
pub fn wide(feeds: &mut Feeds, _seed: u64) {
    for length in [127, 128, 255, 256, 65_000] {
        for count in shortest_ber(length).len().max(2) - 1..=8 {
            let value = [&[0x07][..], &shortest_ber(length), &vec![0xAB; length as usize]].concat();
            let form =
                |value: &[u8]| long_ber(value.len() as u64, count.max(shortest_ber(value.len() as u64).len() - 1));
            let source = wrap(&key(SET_03), &form(&value), &value);
            let unlisted = [&[0x08][..], &value[1..]].concat();
            let refused = wrap(&key(SET_03), &form(&unlisted), &unlisted);
            let other = wrap(&NO_KEY, &form(&value), &value);
            feeds.counts("longer lengths", &call(SET_03, SET_01, &[source, refused, other]), [1, 1, 1]);
        }
    }
}
