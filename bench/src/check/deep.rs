//! The check of the deep operations: on their workloads, on damaged variants of them, and on small trees of all kinds.
use super::operation::{answer, exact, Seen};
use super::{HELD, REFUSED, VARIANTS};
use crate::damage::deep::damaged;
use crate::operation::{Lent, Operation};
use crate::random::{seed, Random};
use crate::side::Side;
use crate::workload::deep::{any, one_value, Deep, BER, DEEP, LONG, MANY};
use crate::workload::{Job, Made};

/// Small trees; most are damaged.
const TREES: usize = 9_000;
const LONG_OUTPUT: u64 = REFUSED + 14_000;
/// The refusals of the deep write. The listing never gives 14.
const REFUSALS: [usize; 13] = [1, 4, 5, 7, 8, 9, 10, 14, 15, 17, 18, 19, 20];

/// Panics as the check of the regrouping call does.
pub fn run() {
    let workloads: Vec<&Deep> = DEEP.iter().chain(&BER).chain([&MANY, &LONG]).collect();
    let mut seen = Seen::of(Operation::is_deep);
    let mut random = Random::new(seed());
    seen.iter().for_each(|seen| longest(seen.operation));
    for deep in &workloads {
        let job = deep.job();
        seen.iter().for_each(|seen| whole(seen.operation, deep.name, &job));
        for _ in 0..VARIANTS {
            Seen::count_all(&mut seen, deep.name, &damaged(&mut random, &job));
        }
    }
    for _ in 0..TREES {
        let job = any(&mut random);
        Seen::count_all(&mut seen, "a tree", &damaged(&mut random, &job));
    }
    let variants = VARIANTS * workloads.len();
    for seen in seen {
        let title = seen.operation.title();
        println!("checked: {title}, {} workloads, {variants} damaged variants and {TREES} trees", workloads.len());
        let given = |n: &usize| seen.operation == Operation::DeepWrite || *n != 14;
        seen.report(&REFUSALS.into_iter().filter(given).collect::<Vec<_>>());
    }
}

/// A workload, and a second application of the write, which writes the same bytes.
fn whole(operation: Operation, name: &str, job: &Job) {
    let length = exact(operation, name, job);
    if operation == Operation::DeepWrite {
        again(name, job, length);
    }
}

/// An output of 65,536 bytes passes, as an input too; one byte more gives 14, and the listing takes it.
fn longest(operation: Operation) {
    let name = "one long value";
    whole(operation, name, &one_value(65_479));
    let expected = if operation == Operation::DeepWrite { LONG_OUTPUT } else { 2 };
    let given = answer(operation, name, &one_value(65_480), 65_537, 6);
    assert!(given == expected, "{name}: an output of 65,537 bytes gives {given}");
}

fn again(name: &str, job: &Job, length: usize) {
    let mut lent = Lent::filled(length, 0, HELD);
    Operation::DeepWrite.call(Side::Archive, job, &mut lent);
    let job = Job { group: lent.bytes.clone(), ..job.clone() };
    lent.bytes.fill(HELD);
    Operation::DeepWrite.call(Side::Archive, &job, &mut lent);
    assert!(lent.bytes == job.group, "{name}: a second application writes other bytes");
}
