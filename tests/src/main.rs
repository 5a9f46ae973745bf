//! Compares the key and length layer, the deep operations and the listing with the number of longer forms, through the C
//! entries of the crate `probe`, and the regrouping and listing calls and the feed, through those of the crate
//! `perlenhuf`, and the program of the crate `regroup` with a second implementation, of 01 from its text alone and of
//! 02's points 1, 2, 4, 5 and 7, which shares no code with them. Then plants faults in the second implementation, each of
//! which the comparison must notice. The last line is `N passed, M failed`.
mod access;
mod batch;
mod call;
mod calls;
mod cases;
mod compare;
mod compare_calls;
mod compare_deep;
mod compare_feed;
mod compare_jobs;
mod deep;
mod enough;
mod fault;
mod feed;
mod feed_call;
mod generate;
mod groups;
mod guard;
mod hex;
mod host;
mod host_feed;
mod jobs;
mod keys;
mod listed;
mod literal;
mod numbers;
mod probe;
mod probe_deep;
mod program;
mod random;
mod seen;
mod seen_deep;
mod seen_feed;
mod tally;

use batch::{plant_all, run_all};
use compare::Compare;
use compare_calls::Calls;
use compare_deep::Deep;
use compare_feed::Feeds;
use compare_jobs::Jobs;
use fault::Fault;
use program::Program;
use std::process::ExitCode;

fn main() -> ExitCode {
    let seed = random::seed();
    println!("seed {seed} (set by {})", random::SEED_VARIABLE);
    println!("rounds {} (set by {})", random::rounds(), random::ROUNDS_VARIABLE);
    let sums = [layer(seed), calls(seed), deep(seed), feed(seed), jobs(seed)];
    let passed: u64 = sums.iter().map(|sum| sum.0).sum();
    let failed: u64 = sums.iter().map(|sum| sum.1).sum();
    println!("{passed} passed, {failed} failed");
    if failed == 0 {
        ExitCode::SUCCESS
    } else {
        ExitCode::FAILURE
    }
}

/// Compares the key and length layer; answers how many comparisons passed and failed.
fn layer(seed: u64) -> (u64, u64) {
    println!("keys and lengths");
    let mut compare = Compare::new(false);
    run_all(&mut compare, &cases::BATCHES, seed);
    enough::outcomes(&mut compare);
    plant_all(&mut Compare::new(true), &cases::BATCHES, &Fault::OF_LAYER, seed, &mut compare.tally);
    (compare.tally.passed, compare.tally.failed)
}

/// Compares the two calls; answers how many comparisons passed and failed.
fn calls(seed: u64) -> (u64, u64) {
    println!("regrouping and listing");
    let mut compare = Calls::new(false);
    run_all(&mut compare, &calls::BATCHES, seed);
    enough::seen(&mut compare);
    let faults = [&Fault::OF_CALLS[..], &Fault::OF_LISTINGS].concat();
    plant_all(&mut Calls::new(true), &calls::BATCHES, &faults, seed, &mut compare.tally);
    (compare.tally.passed, compare.tally.failed)
}

/// Compares the deep operations; answers how many comparisons passed and failed.
fn deep(seed: u64) -> (u64, u64) {
    println!("deep operations");
    let mut compare = Deep::new(false);
    run_all(&mut compare, &deep::BATCHES, seed);
    enough::opened(&mut compare);
    let faults = [&Fault::OF_DEEP[..], &Fault::OF_LISTINGS].concat();
    plant_all(&mut Deep::new(true), &deep::BATCHES, &faults, seed, &mut compare.tally);
    (compare.tally.passed, compare.tally.failed)
}

/// Compares the feed; answers how many comparisons passed and failed.
fn feed(seed: u64) -> (u64, u64) {
    println!("the feed");
    let mut compare = Feeds::new(false);
    run_all(&mut compare, &feed::BATCHES, seed);
    enough::fed(&mut compare);
    plant_all(&mut Feeds::new(true), &feed::BATCHES, &Fault::OF_FEED, seed, &mut compare.tally);
    (compare.tally.passed, compare.tally.failed)
}

/// Compares the program; answers how many comparisons passed and failed. One fails where there is no program.
fn jobs(seed: u64) -> (u64, u64) {
    println!("the program");
    let program = match Program::find() {
        Ok(program) => program,
        Err(missing) => {
            println!("MISSING the program: {missing}");
            return (0, 1);
        }
    };
    let mut compare = Jobs::new(program, false);
    run_all(&mut compare, &jobs::BATCHES, seed);
    enough::printed(&mut compare);
    let mut quiet = Jobs::new(compare.program, true);
    plant_all(&mut quiet, &jobs::BATCHES, &Fault::OF_JOBS, seed, &mut compare.tally);
    println!("seen: {} processes", quiet.program.processes);
    (compare.tally.passed, compare.tally.failed)
}
