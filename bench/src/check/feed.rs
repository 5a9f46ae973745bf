//! The check of the feed: both sides tell and write what the plain call makes of each triplet.
mod borders;
mod expected;

use super::{report, Tally, HELD, NUMBERS};
use crate::damage::feed::{damaged_feed, triplets, DamagedFeed};
use crate::random::{seed, Random};
use crate::side::Side;
use crate::workload::feed::any::any;
use crate::workload::feed::{FeedJob, FEEDS};
use crate::workload::list::WORKLOADS;
use crate::workload::Made;
use expected::{expected, Expected};

/// Damaged variants of each workload, and small feeds made of each of the regrouping call's.
const DAMAGED: usize = 60;
const SMALL: usize = 1_000;
/// Room for the output of every workload, and of every small feed.
pub const ROOM: usize = 1 << 22;
const SMALL_ROOM: usize = 1 << 19;
/// The refusals of the feed, and those of a triplet.
const REFUSALS: [usize; 6] = [1, 2, 3, 5, 15, 21];
const TRIPLET_REFUSALS: [usize; 11] = [4, 6, 8, 9, 10, 11, 12, 13, 14, 19, 20];

/// How often each answer came, to a feed and to a triplet, and how many triplets had other keys.
struct Seen {
    feeds: Tally,
    triplets: Tally,
    others: usize,
}

/// Panics as the check of the regrouping call does.
pub fn run() {
    let mut random = Random::new(seed());
    let mut seen = Seen { feeds: [0; NUMBERS], triplets: [0; NUMBERS], others: 0 };
    borders::run();
    for workload in &FEEDS {
        let feed = workload.job();
        whole(workload.name, &feed);
        for _ in 0..DAMAGED {
            seen.count(workload.name, &damaged_feed(&mut random, feed.clone(), ROOM));
        }
    }
    for workload in &WORKLOADS {
        let job = workload.job();
        for _ in 0..SMALL {
            let feed = any(&mut random, &job);
            seen.count(workload.name, &damaged_feed(&mut random, feed, SMALL_ROOM));
        }
    }
    let (variants, small) = (DAMAGED * FEEDS.len(), SMALL * WORKLOADS.len());
    println!("checked: feed, {} workloads, {variants} damaged variants and {small} small feeds", FEEDS.len());
    report(&seen.feeds, &REFUSALS);
    println!("their triplets: {} others, and with the source key", seen.others);
    report(&seen.triplets, &TRIPLET_REFUSALS);
    assert!(seen.others > 0, "no triplet had another key");
}

impl Seen {
    fn count(&mut self, name: &str, damaged: &DamagedFeed) {
        let Expected { numbers, answers, .. } = both(name, &damaged.feed, damaged.room);
        self.feeds[numbers[4] as usize] += 1;
        self.others += numbers[3] as usize;
        answers.iter().for_each(|answer| self.triplets[super::number(*answer)] += 1);
    }
}

/// What both sides tell and write: what is expected, and nothing past it.
fn both(name: &str, feed: &FeedJob, room: usize) -> Expected {
    let expected = expected(feed, room);
    for side in [Side::Archive, Side::Baseline] {
        let (mut output, mut numbers) = (vec![HELD; room], [u64::MAX; 6]);
        side.feed(feed, &mut output, &mut numbers);
        let Expected { numbers: wanted, output: written, .. } = &expected;
        assert!(numbers == *wanted, "{name}: {side:?} tells {numbers:?}, not {wanted:?}; {}", shown(feed, room));
        let (front, rest) = output.split_at(written.len());
        assert!(front == written, "{name}: {side:?} writes other bytes, {numbers:?}; {}", shown(feed, room));
        assert!(rest.iter().all(|byte| *byte == HELD), "{name}: {side:?} alters the rest; {}", shown(feed, room));
    }
    expected
}

/// The bytes of a call, or the front of them.
fn shown(feed: &FeedJob, room: usize) -> String {
    let hex = |bytes: &[u8]| bytes.iter().take(6_000).map(|byte| format!("{byte:02X}")).collect::<String>();
    let FeedJob { source, job } = feed;
    let [tags, packs, source, target, feed] = [&job.tags, &job.packs, source, &job.target, &job.group].map(|b| hex(b));
    format!("room {room}\ntags {tags}\npacks {packs}\nsource {source}\ntarget {target}\nfeed {feed}")
}

/// A workload is accepted, all its triplets are counted, a slice that is just long enough passes, and one byte less
/// gives 15.
fn whole(name: &str, feed: &FeedJob) {
    let [length, counts @ .., refusal, place] = both(name, feed, ROOM).numbers;
    assert!([refusal, place] == [0, 0], "{name} is refused: {refusal} at {place}");
    let count = triplets(&feed.job.group).len() as u64 - 1;
    assert!(counts.iter().sum::<u64>() == count, "{name}: {counts:?} are not {count} triplets");
    let exact = both(name, feed, length as usize).numbers;
    assert!(exact[0] == length, "{name}: a slice of {length} bytes gives {exact:?}");
    let short = both(name, feed, length as usize - 1).numbers;
    assert!(short == [0, 0, 0, 0, 15, 0], "{name}: a slice too short gives {short:?}");
}
