//! The check before timing: both sides answer alike, on the workloads and on damaged variants of them.
mod deep;
mod feed;
mod listing;
mod measured;
mod operation;

use crate::damage::{damaged, Damaged};
use crate::random::{seed, Random};
use crate::side::Side;
use crate::workload::list::WORKLOADS;
use crate::workload::{Job, Made};

/// Damaged variants of each workload.
const VARIANTS: usize = 1_500;
/// What an output slice holds before a call.
const HELD: u8 = 0xA5;
const REFUSED: u64 = 1_000_000;

/// One more than the largest number of a refusal.
const NUMBERS: usize = 22;

/// How often each answer came: 0 is accepted, n is refusal n.
type Tally = [usize; NUMBERS];

/// The refusals of the regrouping call.
const REFUSALS: [usize; 17] = [1, 2, 3, 4, 5, 6, 7, 8, 9, 10, 11, 12, 13, 14, 15, 19, 20];

/// Panics where the two sides differ, where a workload is refused, or where some refusal never came.
pub fn run() {
    regrouping();
    deep::run();
    listing::run();
    measured::run();
    feed::run();
}

fn regrouping() {
    let mut random = Random::new(seed());
    let mut tally = [0; NUMBERS];
    for workload in &WORKLOADS {
        let job = workload.job();
        let answer = regrouped(workload.name, &Damaged { job: job.clone(), room: 65_536 });
        assert!(answer < REFUSED, "{} is refused: {answer}", workload.name);
        let whole = |job| regrouped(workload.name, &Damaged { job, room: 65_536 });
        tables_matter(workload.name, &job, &[|job| &mut job.tags, |job| &mut job.packs, |job| &mut job.target], whole);
        for _ in 0..VARIANTS {
            let answer = regrouped(workload.name, &damaged(&mut random, &job));
            tally[number(answer)] += 1;
        }
    }
    let total: usize = tally.iter().sum();
    println!("checked: {} workloads and {total} damaged variants, answers and outputs alike", WORKLOADS.len());
    report(&tally, &REFUSALS);
}

/// The answer of both sides to a regrouping call.
fn regrouped(name: &str, damaged: &Damaged) -> u64 {
    alike(name, vec![HELD; damaged.room], |side, output| side.call(&damaged.job, output)).0
}

/// The answer of both sides, and what became of what they were lent: answers and whole slices are equal, and a refusal
/// leaves all as it was.
fn alike<T: Clone + PartialEq>(name: &str, lent: T, call: impl Fn(Side, &mut T) -> u64) -> (u64, T) {
    let [archive, baseline] = [Side::Archive, Side::Baseline].map(|side| {
        let mut output = lent.clone();
        (call(side, &mut output), output)
    });
    assert!(archive.0 == baseline.0, "{name}: the archive answers {}, the baseline {}", archive.0, baseline.0);
    assert!(archive.1 == baseline.1, "{name}: the outputs differ, answer {}", archive.0);
    assert!(archive.0 < REFUSED || archive.1 == lent, "{name}: refusal {} alters the output", archive.0);
    archive
}

/// A slice of a job.
type Pick = fn(&mut Job) -> &mut Vec<u8>;

/// A call that ignored its tables or its target would be noticed here: the last key of each is spoiled.
fn tables_matter(name: &str, job: &Job, slices: &[Pick], call: impl Fn(Job) -> u64) {
    for pick in slices {
        let mut job = job.clone();
        let slice = pick(&mut job);
        if let Some(byte) = slice.len().checked_sub(16).map(|at| &mut slice[at]) {
            *byte = 0x07;
            let answer = call(job);
            assert!(answer >= REFUSED, "{name}: a spoiled key is accepted");
        }
    }
}

/// 0 for an accepted call, else the refusal's number.
fn number(answer: u64) -> usize {
    (answer.saturating_sub(REFUSED) / 1_000) as usize
}

/// Prints how often each answer came. Each of these refusals must have come, and no other.
fn report(tally: &Tally, refusals: &[usize]) {
    let refused: Vec<String> = refusals.iter().map(|n| format!("{n}: {}", tally[*n])).collect();
    println!("accepted {}; refused {}", tally[0], refused.join(", "));
    assert!(tally[0] > 0 && refusals.iter().all(|n| tally[*n] > 0), "some answer never came");
    let known: usize = tally[0] + refusals.iter().map(|n| tally[*n]).sum::<usize>();
    assert!(known == tally.iter().sum(), "an answer came that is not one of these");
}
