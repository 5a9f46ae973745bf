//! Random jobs, every pair of group bytes in turn.
use crate::call::Call;
use crate::compare_jobs::Jobs;
use crate::generate::{self, job};
use crate::groups::kind::SORTS;
use crate::random::{rounds, Random};

/// Every pair of group bytes.
fn turns(seed: u64, mut one: impl FnMut(&mut Random, Call)) {
    let mut random = Random::new(seed);
    for (source, ..) in SORTS {
        for (target, ..) in SORTS {
            let call = generate::call(&mut random, source, target);
            one(&mut random, call);
        }
    }
}

pub fn jobs(jobs: &mut Jobs, seed: u64) {
    for round in 0..rounds() {
        turns(seed ^ 0xF1 ^ round << 32, |_, call| {
            jobs.call(&call);
        });
    }
}

/// Jobs with other pairs, and jobs with other bytes.
pub fn damaged(jobs: &mut Jobs, seed: u64) {
    for round in 0..rounds() {
        turns(seed ^ 0xF2 ^ round << 32, |random, call| {
            let mut pairs = job::pairs(&call);
            if random.one_in(2) {
                job::damage_pairs(random, &mut pairs);
            }
            let mut file = job::with_pairs(pairs, &job::rest(&call));
            if random.one_in(2) {
                job::damage(random, &mut file);
            }
            jobs.file(&file);
        });
    }
}
