//! Feeds at the borders: no triplet, the most bytes, the most triplets, and one byte more or less.
use super::{both, ROOM};
use crate::workload::feed::{FeedJob, FEEDS};

/// The most bytes of a feed, and how many triplets without a value these are.
const MOST: usize = 1_048_576;
const TRIPLETS: usize = MOST / 17;

/// Panics where an answer is not the one that 02 has.
pub fn run() {
    let feed = FEEDS[0].job();
    told("no triplet", &with(&feed, Vec::new()), 0, [0; 6]);
    let most = with(&feed, empties(&feed, TRIPLETS));
    let mut full = most.clone();
    full.job.group.resize(MOST, 0x00);
    full.job.group[(TRIPLETS - 1) * 17 + 16] = (MOST - TRIPLETS * 17) as u8;
    let mut long = full.clone();
    long.job.group.push(0x00);
    let counts = |length: usize, refused: u64| [length as u64, TRIPLETS as u64 - refused, refused, 0, 0, 0];
    told("the most triplets", &most, ROOM, counts(TRIPLETS * 17, 0));
    told("the most bytes", &full, ROOM, counts(MOST, 1));
    told("a byte more", &long, ROOM, [0, 0, 0, 0, 21, 0]);
    told("a byte more, and no triplet", &with(&feed, vec![0xFF; MOST + 1]), ROOM, [0, 0, 0, 0, 21, 0]);
    ends(&feed, &most);
}

/// The first and the last of many triplets are cut off, or have a malformed length, or too long a value.
fn ends(feed: &FeedJob, most: &FeedJob) {
    let last = TRIPLETS - 1;
    for index in [0, 1, 999, 1_000, 1_001, last] {
        for length in [0x80, 0x89, 0xFF] {
            let mut bad = most.clone();
            bad.job.group[17 * index + 16] = length;
            told("a malformed length", &bad, ROOM, [0, 0, 0, 0, 21, index as u64]);
        }
        for cut in [1, 15, 16] {
            let bad = with(feed, most.job.group[..17 * index + cut].to_vec());
            told("a triplet cut off", &bad, 0, [0, 0, 0, 0, 21, index as u64]);
        }
        let long = [&most.job.group[..17 * index + 16], &[0x88], &[0xFF; 8]].concat();
        told("too long a value", &with(feed, long), 0, [0, 0, 0, 0, 21, index as u64]);
    }
}

/// The same call with another feed.
fn with(feed: &FeedJob, bytes: Vec<u8>) -> FeedJob {
    let mut feed = feed.clone();
    feed.job.group = bytes;
    feed
}

/// So many empty sets with the source key.
fn empties(feed: &FeedJob, count: usize) -> Vec<u8> {
    [&feed.source[..], &[0x00]].concat().repeat(count)
}

fn told(name: &str, feed: &FeedJob, room: usize, numbers: [u64; 6]) {
    let given = both(name, feed, room).numbers;
    assert!(given == numbers, "{name}: {given:?}, not {numbers:?}");
}
