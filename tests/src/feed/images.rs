//! What 02 says of the feed by the plain call and the listing, without the second implementation: the output is the joined
//! image of the triplets, the items of a regrouped group are those that came in, and so they are after a second feed.
use crate::call::Call;
use crate::compare_calls::{filled, items_of, Items};
use crate::compare_feed::Feeds;
use crate::feed_call::FeedCall;
use crate::generate::feed::Run;
use crate::generate::plan::Plan;
use crate::groups::kind::SORTS;
use crate::groups::{MOST_BYTES, MOST_ITEMS};
use crate::guard::Side;
use crate::host_feed::Fed;
use crate::random::{rounds, Random};

/// How many feeds are made for every pair of group bytes in a round.
const TURNS: usize = 3;

/// What the plain call gives for a triplet, and which of the three counts that is in.
type Image = (Vec<u8>, usize);

const REGROUPED: usize = 0;

pub fn all(feeds: &mut Feeds, seed: u64) {
    for round in 0..rounds() {
        let mut random = Random::new(seed ^ 0xF5 ^ round << 32);
        for _ in 0..TURNS {
            for (source, ..) in SORTS {
                for (target, ..) in SORTS {
                    one(feeds, &mut random, source, target);
                }
            }
        }
    }
}

/// A feed; its output to the same target again, and back to the source.
fn one(feeds: &mut Feeds, random: &mut Random, source: u8, target: u8) {
    let plan = Plan::fitting(random, source, target);
    let run = Run::any(random, &plan);
    let call = run.call();
    let images = joined(feeds, &call, &run.triplets);
    keeps_items(feeds, &call, &run.triplets, &images);
    let outputs: Vec<Vec<u8>> = images.iter().map(|image| image.0.clone()).collect();
    for target in [&call.target, &call.source] {
        let again =
            FeedCall { source: call.target.clone(), target: target.clone(), ..call.with_feed(outputs.concat()) };
        let second = joined(feeds, &again, &outputs);
        keeps_items(feeds, &again, &outputs, &second);
        for (first, second) in images.iter().zip(&second).filter(|(first, _)| first.1 == REGROUPED) {
            let same = *target != call.target || first == second;
            feeds.tally.equal(same, true, || format!("fed to its own target: {}", again.text()));
        }
    }
}

/// The output is the joined image of these triplets, the counts are theirs.
fn joined(feeds: &mut Feeds, call: &FeedCall, triplets: &[Vec<u8>]) -> Vec<Image> {
    let images: Vec<Image> = triplets.iter().map(|triplet| image(feeds, call, triplet)).collect();
    let output: Vec<u8> = images.iter().flat_map(|image| &image.0).copied().collect();
    let count = |sort: usize| images.iter().filter(|image| image.1 == sort).count() as u64;
    let numbers = [output.len() as u64, count(0), count(1), count(2), 0, 0];
    let got = feeds.feeder.feed(Side::End, call, &filled(output.len()));
    let expected = Fed { numbers, output, rest_unaltered: true };
    feeds.tally.equal(&got, &expected, || format!("the joined image: {}", call.text()));
    images
}

/// What goes out for a triplet, by the plain call with a slice that is long enough.
fn image(feeds: &Feeds, call: &FeedCall, triplet: &[u8]) -> Image {
    if triplet[..16] != call.source {
        return (triplet.to_vec(), 2);
    }
    let got = feeds.host.regroup(Side::End, &call.plain(triplet), &[0x00; MOST_BYTES]);
    if got.answer >= 1_000_000 {
        return (triplet.to_vec(), 1);
    }
    (got.output.0[..got.answer as usize].to_vec(), REGROUPED)
}

/// Each regrouped triplet is listed with the same items before and after.
fn keeps_items(feeds: &mut Feeds, call: &FeedCall, triplets: &[Vec<u8>], images: &[Image]) {
    for (triplet, (output, sort)) in triplets.iter().zip(images) {
        if *sort == REGROUPED {
            let [before, after] = [triplet, output].map(|group| items(feeds, &call.plain(group)));
            let kept = before.is_some() && before == after;
            feeds.tally.equal(kept, true, || format!("the items of a triplet: {}", call.text()));
        }
    }
}

fn items(feeds: &Feeds, call: &Call) -> Option<Items> {
    let listed = feeds.host.listing(Side::End, call, &[0x00; 16 * MOST_ITEMS], &[0; 3 * MOST_ITEMS]);
    items_of(&listed, &call.group)
}
