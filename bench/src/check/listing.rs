//! The check of the listing: on the groups of all workloads and on damaged variants of them.
use super::operation::{answer, exact, Seen};
use super::{tables_matter, VARIANTS};
use crate::damage::damaged;
use crate::random::{seed, Random};
use crate::workload::list::all;

/// The refusals of the listing.
const REFUSALS: [usize; 12] = [1, 2, 4, 5, 7, 8, 9, 10, 11, 15, 19, 20];

/// Panics as the check of the regrouping call does.
pub fn run() {
    let workloads = all();
    let mut seen = Seen::of(|operation| !operation.is_deep());
    let mut random = Random::new(seed());
    for workload in &workloads {
        let (name, job) = (workload.name(), workload.job());
        for operation in seen.iter().map(|seen| seen.operation) {
            exact(operation, name, &job);
            let listed = |job| answer(operation, name, &job, 65_536, 65_536);
            tables_matter(name, &job, &[|job| &mut job.tags, |job| &mut job.packs], listed);
        }
        for _ in 0..VARIANTS {
            Seen::count_all(&mut seen, name, &damaged(&mut random, &job));
        }
    }
    let variants = VARIANTS * workloads.len();
    for seen in seen {
        let title = seen.operation.title();
        println!("checked: {title}, {} workloads and {variants} damaged variants", workloads.len());
        seen.report(&REFUSALS);
    }
}
