//! Workloads of the feed: runs of triplets, made from fixed seeds.
pub mod any;

use super::make::{ber, group_key, item_key, regrouped, table, triplet, universal, SEED};
use super::Job;
use crate::random::Random;
use Content::{Mixed, Others, Sets};

/// What a feed call is given, its output slice aside. The feed stands in the place of the group.
#[derive(Clone)]
pub struct FeedJob {
    pub source: Vec<u8>,
    pub job: Job,
}

/// What the triplets are.
#[derive(Clone, Copy)]
enum Content {
    /// Triplets with other keys, each of so many bytes.
    Others(usize),
    /// Sets with the source key, all of which are regrouped.
    Sets,
    /// In random order: half of them such sets, the rest sets that are refused and others of 64 and of 1,024 bytes.
    Mixed,
}

/// One workload: as many triplets as have room.
pub struct Feed {
    pub name: &'static str,
    /// Byte 6 of the source and of the target.
    from: u8,
    to: u8,
    tags: usize,
    content: Content,
    bytes: usize,
}

const MOST: usize = 1 << 20;
/// How many bytes of sets are regrouped.
const PART: usize = 1 << 18;
/// How many items a set has.
const ITEMS: usize = 10;

#[rustfmt::skip]
pub const FEEDS: [Feed; 8] = [
    Feed { name: "feed-others-1024", from: 0x01, to: 0x53, tags: 16, content: Others(1_024), bytes: MOST },
    Feed { name: "feed-others-64", from: 0x01, to: 0x53, tags: 16, content: Others(64), bytes: MOST },
    Feed { name: "feed-01-53-16", from: 0x01, to: 0x53, tags: 16, content: Sets, bytes: PART },
    Feed { name: "feed-13-01-16", from: 0x13, to: 0x01, tags: 16, content: Sets, bytes: PART },
    Feed { name: "feed-01-53-256", from: 0x01, to: 0x53, tags: 256, content: Sets, bytes: PART },
    Feed { name: "feed-13-01-256", from: 0x13, to: 0x01, tags: 256, content: Sets, bytes: PART },
    Feed { name: "feed-mixed-16", from: 0x01, to: 0x53, tags: 16, content: Mixed, bytes: MOST },
    Feed { name: "feed-mixed-256", from: 0x01, to: 0x53, tags: 256, content: Mixed, bytes: MOST },
];

/// The workload of a name.
pub fn named(name: &str) -> Option<&'static Feed> {
    FEEDS.iter().find(|feed| feed.name == name)
}

impl Feed {
    /// Whether all triplets have other keys.
    pub fn is_others(&self) -> bool {
        matches!(self.content, Others(_))
    }

    pub fn job(&self) -> FeedJob {
        let mut random = Random::new(SEED);
        let keys: Vec<[u8; 16]> = (0..self.tags).map(record_key).collect();
        let (tags, packs) = (table(&keys, |n| n as u32), Vec::new());
        let mut job = Job { tags, packs, target: group_key(self.to).to_vec(), group: Vec::new() };
        loop {
            let next = self.triplet(&mut random, &keys, &job);
            if job.group.len() + next.len() > self.bytes {
                return FeedJob { source: group_key(self.from).to_vec(), job };
            }
            job.group.extend(next);
        }
    }

    /// The next triplet.
    fn triplet(&self, random: &mut Random, keys: &[[u8; 16]], job: &Job) -> Vec<u8> {
        match (self.content, random.below(6)) {
            (Others(bytes), _) => other(random, bytes),
            (Mixed, 0) => refused(random, keys),
            (Mixed, 1) => other(random, 1_024),
            (Mixed, 2) => other(random, 64),
            _ => self.set(random, keys, job),
        }
    }

    /// A set with the source key: records that follow one another, from any one on.
    fn set(&self, random: &mut Random, keys: &[[u8; 16]], job: &Job) -> Vec<u8> {
        let group = universal(&items(random, keys));
        let target = group_key(self.from).to_vec();
        if self.from == group[5] {
            group
        } else {
            regrouped(&Job { target, group, ..job.clone() })
        }
    }
}

fn items(random: &mut Random, keys: &[[u8; 16]]) -> Vec<([u8; 16], Vec<u8>)> {
    let start = random.below(keys.len());
    (0..ITEMS).map(|n| (keys[(start + n) % keys.len()], value(random))).collect()
}

/// A value of 1 to 24 bytes.
fn value(random: &mut Random) -> Vec<u8> {
    let length = 1 + random.below(24);
    random.bytes(length)
}

/// A universal set whose last item has no tag.
fn refused(random: &mut Random, keys: &[[u8; 16]]) -> Vec<u8> {
    let mut items = items(random, keys);
    items[ITEMS - 1].0 = item_key(&[0x7F]);
    universal(&items)
}

/// A triplet of so many bytes with another key; one key in four differs from a universal set's in its last byte alone.
fn other(random: &mut Random, bytes: usize) -> Vec<u8> {
    let mut key = group_key(0x01);
    if random.one_in(4) {
        key[15] = 0x01;
    } else {
        key.copy_from_slice(&random.bytes(16));
    }
    let length = bytes - 16 - ber(bytes - 17).len();
    triplet(&key, &ber(length), &random.bytes(length))
}

/// The n-th key of the tag table; the keys rise.
fn record_key(n: usize) -> [u8; 16] {
    item_key(&[0x01 + n as u8 / 64, 0x05, 0x01 + n as u8 % 64, 0x01])
}
