//! Packs of 256 empty elements, which have 17 bytes, and 4,371 as a universal set: no feed grows more.
use super::build::{call_with, other, triplet};
use crate::calls::literals::{record, ITEM, PACK_04, PACK_05, SET_01, SET_03};
use crate::compare_calls::filled;
use crate::compare_feed::{needed, Feeds};
use crate::feed_call::FeedCall;
use crate::groups::MOST_FEED;
use crate::guard::Side;

/// The bytes of the universal set.
const GROWN: usize = 16 + 3 + 256 * 17;

/// A call with 256 records of no bytes each.
fn call(source: &str, target: &str, triplets: &[Vec<u8>]) -> FeedCall {
    call_with(&record(7, ITEM), &record(0, ITEM).repeat(256), source, target, triplets)
}

/// Defined-length and variable-length packs, to universal and local sets.
pub fn elements(feeds: &mut Feeds, _seed: u64) {
    for (source, pack) in [(PACK_05, triplet(PACK_05, "-")), (PACK_04, triplet(PACK_04, &"00".repeat(256)))] {
        for count in [1, 2, 15, 16, 40] {
            let mut triplets = vec![pack.clone(); count];
            triplets.push(other(3));
            let grown = call(source, SET_01, &triplets);
            let length = needed(&grown).unwrap_or(0);
            feeds.tally.equal(length, count * GROWN + 20, || format!("{count} packs of {source}"));
            feeds.counts("packs that grow", &grown, [count as u64, 0, 1]);
            feeds.refused_in("packs that grow, a byte short", &grown, length - 1, (15, 0));
            feeds.counts("packs to local sets", &call(source, SET_03, &triplets), [count as u64, 0, 1]);
            let more = [&pack[..], &triplet(source, "0000")].concat();
            feeds.counts("a pack of another length", &grown.with_feed(more), [1, 1, 0]);
        }
    }
}

/// As many packs as 1 MiB holds: all of the output is the plain call's, over and over. It is not compared by the second
/// implementation.
pub fn most(feeds: &mut Feeds, _seed: u64) {
    let pack = triplet(PACK_05, "-");
    let count = MOST_FEED / 17 - 1;
    let call = call(PACK_05, SET_01, &[pack.repeat(count), other(16)]);
    feeds.tally.equal(call.feed.len(), MOST_FEED, || "the feed's length".to_string());
    let image = feeds.host.regroup(Side::End, &call.plain(&pack), &filled(GROWN));
    feeds.tally.equal(image.answer, GROWN as u64, || "the image's length".to_string());
    let length = count * GROWN + 33;
    let mut output = vec![0x5A; length + 100];
    let got = feeds.feeder.feed_into(&call, &mut output[..length - 1]);
    feeds.tally.equal(got, [0, 0, 0, 0, 15, 0], || "a byte short".to_string());
    let unaltered = output.iter().all(|byte| *byte == 0x5A);
    feeds.tally.equal(unaltered, true, || "the slice that is a byte short is unaltered".to_string());
    let got = feeds.feeder.feed_into(&call, &mut output);
    feeds.tally.equal(got, [length as u64, count as u64, 0, 1, 0, 0], || "1 MiB of packs".to_string());
    let images = output[..count * GROWN].chunks_exact(GROWN).all(|chunk| chunk == image.output.0);
    feeds.tally.equal(images, true, || "every image is the plain call's".to_string());
    let rest = [other(16), vec![0x5A; 100]].concat();
    feeds.tally.equal(&output[count * GROWN..], &rest[..], || "what stands after the images".to_string());
}
