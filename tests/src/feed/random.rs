//! Random feeds, whole and damaged; small ones with every byte changed.
use crate::compare_feed::{needed, Feeds};
use crate::feed_call::FeedCall;
use crate::generate::bytes::BOUNDARY;
use crate::generate::feed::{damage, Run};
use crate::generate::plan::Plan;
use crate::generate::{alter, room};
use crate::groups::kind::SORTS;
use crate::random::{rounds, Random};

/// How many feeds are made for every pair of group bytes in a round, and how many in all for each fault.
const TURNS: usize = 25;
const FEW: usize = 400;

/// The most bytes of a small feed.
const SMALL: usize = 300;

pub fn all(feeds: &mut Feeds, seed: u64) {
    for round in 0..rounds() {
        let mut random = Random::new(seed ^ 0xF2 ^ round << 32);
        for _ in 0..TURNS {
            for (source, ..) in SORTS {
                for (target, ..) in SORTS {
                    one(feeds, &mut random, source, target);
                }
            }
        }
    }
}

pub fn few(feeds: &mut Feeds, seed: u64) {
    let mut random = Random::new(seed ^ 0xF3);
    for _ in 0..FEW {
        let [source, target] = [0, 1].map(|_| random.choose(&SORTS).0);
        one(feeds, &mut random, source, target);
    }
}

/// A feed, at times with tables or keys that do not fit, at times damaged; a slice that may be short.
fn one(feeds: &mut Feeds, random: &mut Random, source: u8, target: u8) {
    let mut plan = Plan::fitting(random, source, target);
    if random.one_in(8) {
        alter::alter(random, &mut plan);
    }
    let mut call = Run::any(random, &plan).call();
    if random.one_in(3) {
        damage(random, &mut call);
    }
    let needed = needed(&call).unwrap_or_else(|| random.below(100));
    let room = room::about(random, needed);
    feeds.feed(&call, room);
}

/// Every byte of small feeds, and of their keys, changed to boundary values and to its neighbours.
pub fn one_byte(feeds: &mut Feeds, seed: u64) {
    let mut random = Random::new(seed ^ 0xF4);
    for (turn, (source, ..)) in SORTS.into_iter().enumerate() {
        let target = SORTS[(turn * 7 + 3) % SORTS.len()].0;
        let plan = Plan::with_lengths(&mut random, source, target, &[2, 0]);
        let mut call = loop {
            let run = Run::any(&mut random, &plan);
            if run.triplets.len() >= 3 && run.call().feed.len() <= SMALL {
                break run.call();
            }
        };
        for place in 0..call.feed.len() + 32 {
            let own = *byte_at(&mut call, place);
            for byte in BOUNDARY.into_iter().chain([own.wrapping_add(1), own.wrapping_sub(1), own ^ 0x80]) {
                *byte_at(&mut call, place) = byte;
                feeds.whole(&call);
            }
            *byte_at(&mut call, place) = own;
        }
    }
}

/// A byte of source, target or feed.
fn byte_at(call: &mut FeedCall, place: usize) -> &mut u8 {
    match place {
        0..16 => &mut call.source[place],
        16..32 => &mut call.target[place - 16],
        _ => &mut call.feed[place - 32],
    }
}
