//! Small feeds of any kind: the groups of the regrouping call's workloads, whole and damaged, among other triplets.
use super::FeedJob;
use crate::damage::damaged;
use crate::random::Random;
use crate::workload::make::{any_ber, ber, body, triplet};
use crate::workload::Job;

/// Up to six triplets made of a regrouping call. The source is its group's key.
pub fn any(random: &mut Random, job: &Job) -> FeedJob {
    let source = job.group[..16].to_vec();
    let mut feed = Vec::new();
    for _ in 0..random.below(7) {
        feed.extend(any_triplet(random, job, &source));
    }
    FeedJob { source, job: Job { group: feed, ..job.clone() } }
}

/// The group, a damaged one with the source key, or a triplet with another key.
pub fn any_triplet(random: &mut Random, job: &Job, source: &[u8]) -> Vec<u8> {
    match random.below(4) {
        0 => with_value_of(random, source, &job.group),
        1 | 2 => {
            let damaged = damaged(random, job);
            with_value_of(random, source, &damaged.job.group)
        }
        _ => other(random, source),
    }
}

/// A triplet with this key and the value of a group, its length at times in a longer form.
fn with_value_of(random: &mut Random, key: &[u8], group: &[u8]) -> Vec<u8> {
    let value = body(group).map_or(&[][..], |at| &group[at..]);
    let length = if random.one_in(4) { any_ber(random, value.len()) } else { ber(value.len()) };
    triplet(key, &length, value)
}

/// A short triplet; its key is any bytes, or differs from the source in one bit.
fn other(random: &mut Random, source: &[u8]) -> Vec<u8> {
    let mut key = random.bytes(16);
    if random.one_in(2) {
        key.copy_from_slice(source);
        key[random.below(16)] ^= 1 << random.below(8);
    }
    let count = random.below(200);
    let value = random.bytes(count);
    triplet(&key, &any_ber(random, count), &value)
}
