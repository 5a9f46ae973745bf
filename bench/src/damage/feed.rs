//! Damage to a call of the feed.
use super::*;
use crate::workload::feed::FeedJob;
use crate::workload::make::triplet_size;

/// A call of the feed and the length of its output slice.
#[derive(Clone)]
pub struct DamagedFeed {
    pub feed: FeedJob,
    pub room: usize,
}

type FeedDamage = fn(&mut Random, &mut DamagedFeed);

const FEED_DAMAGES: [FeedDamage; 12] = [
    as_a_call, as_a_call, cut_feed, cut_feed, other_form, bad_length, bad_length, repeat_triplet, other_source_key,
    no_source_key, source_as_target, short_room,
];

/// Damage that a regrouping call has, too.
const SHARED: [Damage; 10] = [
    tag_bytes, pack_bytes, target_bytes, group_bytes, group_bytes, other_kinds, swap_records, repeat_key, cut_tables,
    cut_target,
];

/// None to three damages.
pub fn damaged_feed(random: &mut Random, feed: FeedJob, room: usize) -> DamagedFeed {
    let mut damaged = DamagedFeed { feed, room };
    for _ in 0..random.below(4) {
        random.choose(&FEED_DAMAGES)(random, &mut damaged);
    }
    damaged
}

/// Where the triplets of a feed begin, up to the first that is not whole, and where the last of them ends.
pub fn triplets(feed: &[u8]) -> Vec<usize> {
    let mut at = vec![0];
    while let Some(size) = triplet_size(&feed[at[at.len() - 1]..]) {
        at.push(at[at.len() - 1] + size);
    }
    at
}

/// Some triplet of a feed, if it has one: where it begins and ends.
fn some_triplet(random: &mut Random, feed: &[u8]) -> Option<[usize; 2]> {
    let at = triplets(feed);
    let n = random.below(at.len().max(2) - 1);
    at.get(n + 1).map(|end| [at[n], *end])
}

fn as_a_call(random: &mut Random, damaged: &mut DamagedFeed) {
    let mut call = Damaged { job: damaged.feed.job.clone(), room: damaged.room };
    random.choose(&SHARED)(random, &mut call);
    damaged.feed.job = call.job;
}

/// The feed ends anywhere, or near the beginning of a triplet.
fn cut_feed(random: &mut Random, damaged: &mut DamagedFeed) {
    let feed = &mut damaged.feed.job.group;
    let mut end = random.below(feed.len() + 1);
    if random.one_in(2) {
        let at = triplets(feed);
        end = random.choose(&at) + random.below(20);
    }
    feed.truncate(end);
}

/// A triplet's length in another form.
fn other_form(random: &mut Random, damaged: &mut DamagedFeed) {
    let feed = &mut damaged.feed.job.group;
    if let Some([at, end]) = some_triplet(random, feed) {
        let value = body(&feed[at..end]).map_or(end, |value| at + value);
        feed.splice(at + 16..value, any_ber(random, end - value));
    }
}

/// A triplet's length is malformed, one more than it was, or the largest that can be sent.
fn bad_length(random: &mut Random, damaged: &mut DamagedFeed) {
    let feed = &mut damaged.feed.job.group;
    if let Some([at, end]) = some_triplet(random, feed) {
        match random.below(4) {
            0 => feed[at + 16] = random.choose(&[0x80, 0x89, 0xFF]),
            1 => feed[at + 16] = feed[at + 16].wrapping_add(1),
            2 => drop(feed.splice(at + 16..end, [0x88].into_iter().chain([0xFF; 8]))),
            _ => feed[at + 16] = random.choose(&BORDERS),
        }
    }
}

/// A triplet stands once more, at the end of the feed.
fn repeat_triplet(random: &mut Random, damaged: &mut DamagedFeed) {
    let feed = &mut damaged.feed.job.group;
    if let Some([at, end]) = some_triplet(random, feed) {
        feed.extend_from_within(at..end);
    }
}

/// The source is the key of another kind, or that of some triplet.
fn other_source_key(random: &mut Random, damaged: &mut DamagedFeed) {
    let FeedJob { source, job } = &mut damaged.feed;
    if random.one_in(2) && source.len() == 16 {
        *source = other_key(random, source);
    } else if let Some([at, _]) = some_triplet(random, &job.group) {
        *source = job.group[at..at + 16].to_vec();
    }
}

/// The source has another byte or another length.
fn no_source_key(random: &mut Random, damaged: &mut DamagedFeed) {
    let source = &mut damaged.feed.source;
    if random.one_in(2) {
        change(random, source);
    } else {
        source.resize(random.below(20), 0x00);
    }
}

fn source_as_target(random: &mut Random, damaged: &mut DamagedFeed) {
    let FeedJob { source, job } = &mut damaged.feed;
    if random.one_in(2) {
        job.target = source.clone();
    } else {
        *source = job.target.clone();
    }
}

fn short_room(random: &mut Random, damaged: &mut DamagedFeed) {
    let most = damaged.feed.job.group.len() + 64;
    damaged.room = random.below(most);
}
