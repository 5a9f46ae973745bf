//! Batches of comparisons, and the faults that they notice.
use crate::fault::{self, Fault};
use crate::tally::Tally;

/// A batch of comparisons: its name, what runs it with a seed, and whether it is too large to run for every fault.
pub struct Batch<C> {
    pub name: &'static str,
    pub run: fn(&mut C, u64),
    pub large: bool,
}

pub const fn small<C>(name: &'static str, run: fn(&mut C, u64)) -> Batch<C> {
    Batch { name, run, large: false }
}

pub const fn large<C>(name: &'static str, run: fn(&mut C, u64)) -> Batch<C> {
    Batch { name, run, large: true }
}

/// What compares and counts.
pub trait Comparison {
    fn tally(&mut self) -> &mut Tally;
}

/// Runs every batch and prints how many of its comparisons passed and, if any, how many failed.
pub fn run_all<C: Comparison>(comparison: &mut C, batches: &[Batch<C>], seed: u64) {
    for batch in batches {
        let (passed, failed) = (comparison.tally().passed, comparison.tally().failed);
        (batch.run)(comparison, seed);
        println!("{:>9}  {}", comparison.tally().passed - passed, batch.name);
        if comparison.tally().failed > failed {
            println!("{:>9}  {}: FAILED", comparison.tally().failed - failed, batch.name);
        }
    }
}

/// Plants each fault by itself and counts in the tally whether a small batch finds a mismatch.
pub fn plant_all<C: Comparison>(quiet: &mut C, batches: &[Batch<C>], faults: &[Fault], seed: u64, tally: &mut Tally) {
    for fault in faults {
        fault::plant(Some(*fault));
        let small = batches.iter().filter(|batch| !batch.large);
        let count = small.filter(|batch| finds_mismatch(quiet, batch, seed)).count();
        fault::plant(None);
        println!("fault {fault:?}: noticed by {count} batches");
        tally.equal(count > 0, true, || format!("the fault {fault:?} is noticed"));
    }
}

fn finds_mismatch<C: Comparison>(comparison: &mut C, batch: &Batch<C>, seed: u64) -> bool {
    let before = comparison.tally().failed;
    (batch.run)(comparison, seed);
    comparison.tally().failed > before
}
