//! Triplets that the plain call refuses, for each of its refusals: they go out as they came. A triplet has the right outer
//! length, so that 7 never comes; its key is the source key, and the slice is long enough, so that neither do 5 and 15.
use super::build::other;
use crate::call::Call;
use crate::calls::order::late;
use crate::compare_feed::Feeds;
use crate::feed_call::FeedCall;
use crate::generate::wire::enclose;
use crate::groups::Key;
use crate::literal::Refused;

/// The plain call as a feed of its group alone.
fn feed_of(call: &Call) -> FeedCall {
    let [tags, packs, target, feed] = [&call.tags, &call.packs, &call.target, &call.group].map(Vec::clone);
    FeedCall { tags, packs, source: feed[..16].to_vec(), target, feed }
}

/// The calls that 8 to 14, 19 and 20 refuse, and one each for 4 and 6.
fn calls() -> Vec<(&'static str, Call, Refused)> {
    let mut calls = late();
    let (_, call, _) = calls[0].clone();
    let key: Key = call.group[..16].try_into().expect("a group");
    let mut target = call.target.clone();
    target[9] = 0x02;
    calls.push(("4", call.with_group(enclose(&key, &vec![0x07; 65_518])), (4, 0)));
    calls.push(("4 of a long one", call.with_group(enclose(&key, &vec![0x07; 100_000])), (4, 0)));
    calls.push(("6", call.with_target(&target), (6, 0)));
    calls
}

pub fn all(feeds: &mut Feeds, _seed: u64) {
    for (name, call, (number, _)) in calls() {
        let before = feeds.seen.reasons[number as usize];
        feeds.writes(name, &feed_of(&call), &call.group, [0, 1, 0]);
        let seen = feeds.seen.reasons[number as usize] > before;
        feeds.tally.equal(seen, true, || format!("the plain call gives {number}: {}", call.text()));
    }
}

/// The same between other triplets, a set or pack without items, and the triplet again.
pub fn between(feeds: &mut Feeds, _seed: u64) {
    for (name, call, _) in calls() {
        let whole = feed_of(&call);
        let key: Key = call.group[..16].try_into().expect("a group");
        let parts = [other(1), enclose(&key, &[]), call.group.clone(), other(200), call.group];
        let [_, counts @ .., number, place] = feeds.whole(&whole.with_feed(parts.concat()));
        let got = (counts.iter().sum::<u64>(), counts[1] >= 2, counts[2], number, place);
        feeds.tally.equal(got, (5, true, 2, 0, 0), || format!("{name} between others: {}", whole.text()));
    }
}
