//! Groups of other makers' programs (data/groups.tsv) as feeds: each with its neighbours, and all of them together.
use crate::calls::samples::SAMPLES;
use crate::compare_feed::Feeds;
use crate::feed_call::FeedCall;
use crate::groups::kind::SORTS;
use crate::hex;

/// Tag table, pack table and group.
type Sample = [Vec<u8>; 3];

pub fn all(feeds: &mut Feeds, _seed: u64) {
    let before = feeds.seen.triplets;
    let fields = |line: &'static str| -> Vec<&'static str> { line.split('\t').collect() };
    let lines = SAMPLES.lines().filter(|line| !line.starts_with('#')).map(fields);
    let samples: Vec<Sample> = lines.map(|fields| [fields[1], fields[2], fields[3]].map(hex::bytes)).collect();
    let groups: Vec<Vec<u8>> = samples.iter().map(|sample| sample[2].clone()).collect();
    for (n, sample) in samples.iter().enumerate() {
        let around = groups[n.saturating_sub(1)..(n + 2).min(groups.len())].concat();
        for (byte, ..) in SORTS {
            feeds.whole(&call(sample, byte, around.clone()));
        }
        feeds.whole(&call(sample, 0x01, groups.concat()));
    }
    let [regrouped, refused, others] = [0, 1, 2].map(|sort| feeds.seen.triplets[sort] - before[sort]);
    println!("samples: triplets {regrouped} regrouped, {refused} refused, {others} others");
    let enough = regrouped > 500 && refused > 100 && others > 1_000;
    feeds.tally.equal(enough, true, || "samples that are regrouped".to_string());
}

/// A feed under the tables of a sample, from its key to the same with another group byte, or to a global set.
fn call(sample: &Sample, byte: u8, feed: Vec<u8>) -> FeedCall {
    let [tags, packs, group] = sample.clone();
    let source = group[..16].to_vec();
    let mut target = source.clone();
    target[5] = byte;
    if byte & 0x1F == 0x02 {
        target[6..].copy_from_slice(&[0x03, 0x01, 0x2B, 0x34, 0, 0, 0, 0, 0, 0]);
    }
    FeedCall { tags, packs, source, target, feed }
}
