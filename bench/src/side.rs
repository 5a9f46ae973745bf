//! The two sides that are compared: the archive and the baseline.
use crate::baseline::feed::Numbers;
use crate::workload::feed::FeedJob;
use crate::workload::Job;
use crate::{archive, baseline};

#[derive(Clone, Copy, PartialEq, Eq, Debug)]
pub enum Side {
    Archive,
    Baseline,
}

impl Side {
    /// The side of a name.
    pub fn named(name: &str) -> Option<Side> {
        match name {
            "archive" => Some(Side::Archive),
            "baseline" => Some(Side::Baseline),
            _ => None,
        }
    }

    /// One regrouping call.
    #[inline(always)]
    pub fn call(self, job: &Job, output: &mut [u8]) -> u64 {
        let Job { tags, packs, target, group } = job;
        match self {
            Side::Archive => archive::regroup(tags, packs, target, group, output),
            Side::Baseline => baseline::regroup::answer(tags, packs, target, group, output),
        }
    }

    /// One call of the feed.
    #[inline(always)]
    pub fn feed(self, job: &FeedJob, output: &mut [u8], numbers: &mut Numbers) {
        let FeedJob { source, job: Job { tags, packs, target, group: feed } } = job;
        match self {
            Side::Archive => archive::feed(tags, packs, source, target, feed, output, numbers),
            Side::Baseline => baseline::feed::answer(tags, packs, source, target, feed, output, numbers),
        }
    }
}
