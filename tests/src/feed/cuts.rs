//! Feeds of several triplets that are cut off at every byte.
use super::build::{call, other, triplet};
use crate::calls::literals::{key, SET_01, SET_03};
use crate::compare_feed::Feeds;
use crate::generate::wire::{long_ber, wrap};

pub fn all(feeds: &mut Feeds, _seed: u64) {
    let regrouped = triplet(SET_03, "07 02 ABCD");
    let longer = wrap(&key(SET_03), &long_ber(2, 3), &[0x07, 0x00]);
    let refused = triplet(SET_03, "08 00");
    let long = other(200);
    for triplets in [
        vec![other(3), regrouped.clone(), refused.clone(), other(0)],
        vec![regrouped.clone(), longer, long, refused],
        vec![other(0), other(0), regrouped],
    ] {
        cut_off(feeds, &triplets);
    }
}

/// Up to an end of a triplet the feed is accepted, elsewhere the triplet of the cut is bad.
fn cut_off(feeds: &mut Feeds, triplets: &[Vec<u8>]) {
    let whole = call(SET_03, SET_01, triplets);
    let mut ends = vec![0];
    for triplet in triplets {
        ends.push(ends[ends.len() - 1] + triplet.len());
    }
    for end in 0..=whole.feed.len() {
        let cut = whole.with_feed(whole.feed[..end].to_vec());
        match ends.iter().position(|at| *at == end) {
            Some(count) => {
                let [_, counts @ .., number, place] = feeds.whole(&cut);
                let sums = (counts.iter().sum(), number, place);
                feeds.tally.equal(sums, (count as u64, 0, 0), || format!("cut after a triplet, {end} bytes"));
            }
            None => {
                let bad = ends.iter().filter(|at| **at < end).count() - 1;
                feeds.refused("cut off", &cut, (21, bad as u64));
                feeds.refused_in("cut off, without room", &cut, 0, (21, bad as u64));
            }
        }
    }
}
