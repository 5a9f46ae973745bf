//! Times of the feed, in a table of their own; those of other triplets also beside a copy of the same bytes.
use super::{best, sweeps, table, Times, SWEEPS};
use crate::side::Side;
use crate::workload::feed::{Feed, FeedJob, FEEDS};
use std::hint::black_box;

/// Room for the output of every workload.
const ROOM: usize = 1 << 22;
const SIDES: [Side; 2] = [Side::Archive, Side::Baseline];

/// So many calls of one side. Nothing is known of the feed while compiling.
pub fn repeat(side: Side, feed: &FeedJob, output: &mut [u8], calls: u32) {
    let mut numbers = [0; 6];
    for _ in 0..calls {
        side.feed(black_box(feed), black_box(output), &mut numbers);
        black_box(&numbers);
    }
}

/// Room for the output, all of it written to once.
pub fn room() -> Vec<u8> {
    vec![0xA5; ROOM]
}

fn copy(from: &[u8], to: &mut [u8], count: u32) {
    for _ in 0..count {
        black_box(&mut to[..from.len()]).copy_from_slice(black_box(from));
    }
}

/// Both sides write to one slice.
fn of(workload: &Feed) -> Times {
    let (feed, mut output, mut numbers) = (workload.job(), room(), [0; 6]);
    Side::Baseline.feed(&feed, &mut output, &mut numbers);
    let [length, regrouped, refused, others, ..] = numbers.map(|number| number as usize);
    let [archive, baseline] = best(&mut |side, count| repeat(SIDES[side], &feed, &mut output, count));
    let bytes = [feed.job.group.len(), length];
    Times { name: workload.name, items: regrouped + refused + others, bytes, archive, baseline }
}

/// The archive, the baseline and a copy of the feed, turn by turn into one slice: nanoseconds.
fn beside_copy(workload: &Feed) -> [f64; 3] {
    let (feed, mut output) = (workload.job(), room());
    best(&mut |side, count| match SIDES.get(side) {
        Some(side) => repeat(*side, &feed, &mut output, count),
        None => copy(&feed.job.group, &mut output, count),
    })
}

/// The table, whose items are triplets, and below it the workloads of other triplets beside a copy.
pub fn report() {
    table("feed (items: triplets)", &sweeps(&FEEDS, of));
    for workload in FEEDS.iter().filter(|workload| workload.is_others()) {
        let all: Vec<[f64; 3]> = (0..SWEEPS).map(|_| beside_copy(workload)).collect();
        let [archive, baseline, copy] = [0, 1, 2].map(|n| all.iter().map(|times| times[n]).fold(f64::MAX, f64::min));
        let [copies, baselines] = [archive / copy, baseline / copy];
        println!("{:<24}copy {copy:.0} ns: archive {copies:.2} copies, baseline {baselines:.2}", workload.name);
    }
}
