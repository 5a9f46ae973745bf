//! Feeds: tables and keys of a plan, and a run of triplets.
use super::plan::Plan;
use super::wire::{ber, contents, group, wrap};
use super::{alter, bytes, key, table};
use crate::feed_call::FeedCall;
use crate::groups::Key;
use crate::random::Random;

/// A feed before its triplets are joined.
pub struct Run {
    lent: FeedCall,
    pub triplets: Vec<Vec<u8>>,
}

impl Run {
    /// The tables and keys of a plan, and these triplets.
    pub fn new(plan: &Plan, triplets: Vec<Vec<u8>>) -> Run {
        let lent = FeedCall {
            tags: table::bytes(&plan.tags),
            packs: table::bytes(&plan.packs),
            source: plan.source.to_vec(),
            target: plan.target.to_vec(),
            feed: Vec::new(),
        };
        Run { lent, triplets }
    }

    pub fn call(&self) -> FeedCall {
        self.lent.with_feed(self.triplets.concat())
    }

    /// Up to seven triplets of any sort, under tables and keys that some of them fit.
    pub fn any(random: &mut Random, plan: &Plan) -> Run {
        let count = random.below(8);
        let triplets = (0..count).map(|_| triplet(random, plan)).collect();
        Run::new(plan, triplets)
    }
}

/// A triplet with the source key, whole or damaged, or with another key.
fn triplet(random: &mut Random, plan: &Plan) -> Vec<u8> {
    match random.below(10) {
        0..=3 => {
            let longer = random.one_in(3);
            group(random, plan, &plan.source, longer)
        }
        4 => altered(random, plan),
        5 => damaged(random, plan),
        6 => wrap(&plan.source, &ber(random, 0, true), &[]),
        _ => other(random, plan),
    }
}

/// A source triplet of other items than the tables are made for.
pub fn altered(random: &mut Random, plan: &Plan) -> Vec<u8> {
    let mut other = plan.clone();
    alter::alter(random, &mut other);
    group(random, &other, &plan.source, true)
}

/// A source triplet whose contents are damaged.
pub fn damaged(random: &mut Random, plan: &Plan) -> Vec<u8> {
    let mut contents = contents(random, plan, &plan.source, |random, _, length| ber(random, length, true));
    bytes::damage_any(random, &mut contents);
    wrap(&plan.source, &ber(random, contents.len() as u64, true), &contents)
}

/// A triplet with any key, most often another than the source's.
pub fn other(random: &mut Random, plan: &Plan) -> Vec<u8> {
    let count = match random.below(6) {
        0 => random.choose(&[0, 127, 128, 255, 256, 300]),
        _ => random.below(30),
    };
    let value = random.bytes(count);
    let longer = random.one_in(3);
    let length = ber(random, count as u64, longer);
    wrap(&other_key(random, plan), &length, &value)
}

fn other_key(random: &mut Random, plan: &Plan) -> Key {
    let mut key = plan.source;
    match random.below(5) {
        0 => key[random.below(16)] ^= 1 << random.below(8),
        1 => key = plan.target,
        2 => key = random.bytes(16).try_into().expect("sixteen bytes"),
        3 => key = key::any(random),
        _ => key = key::near(random, &key),
    }
    key
}

/// Damages the feed, or a table or a key that it is lent with.
pub fn damage(random: &mut Random, call: &mut FeedCall) {
    match random.below(10) {
        0 => bytes::damage_any(random, &mut call.tags),
        1 => bytes::damage_any(random, &mut call.packs),
        2 => bytes::damage_any(random, &mut call.source),
        3 => bytes::damage_any(random, &mut call.target),
        4 => call.feed.truncate(random.below(call.feed.len() + 1)),
        _ => bytes::damage_any(random, &mut call.feed),
    }
}
