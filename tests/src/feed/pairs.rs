//! Every pair of the 26 group bytes as source and target, with tables, keys and values that both take.
use super::build::other;
use crate::compare_feed::Feeds;
use crate::generate::feed::{self, Run};
use crate::generate::plan::Plan;
use crate::generate::wire;
use crate::groups::kind::SORTS;
use crate::random::Random;

/// The lengths of the values.
const LENGTHS: [usize; 4] = [3, 0, 17, 2];

pub fn all(feeds: &mut Feeds, seed: u64) {
    let mut random = Random::new(seed ^ 0xF1);
    for (source, ..) in SORTS {
        for (target, ..) in SORTS {
            one(feeds, &mut random, source, target);
        }
    }
}

/// Two groups that fit, two that may not, and others between them.
fn one(feeds: &mut Feeds, random: &mut Random, source: u8, target: u8) {
    let plan = Plan::with_lengths(random, source, target, &LENGTHS);
    let [plain, longer] = [false, true].map(|longer| wire::group(random, &plan, &plan.source, longer));
    let [altered, damaged] = [feed::altered(random, &plan), feed::damaged(random, &plan)];
    let near = feed::other(random, &plan);
    let call = Run::new(&plan, vec![near, plain, altered, other(3), longer, damaged]).call();
    let [_, counts @ .., number, place] = feeds.whole(&call);
    let got = (counts[0] >= 2, counts.iter().sum(), number, place);
    feeds.tally.equal(got, (true, 6, 0, 0), || format!("{source:02X} to {target:02X}: {}", call.text()));
}
