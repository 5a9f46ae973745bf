//! Times of the operations beside the regrouping call, in tables of their own.
use super::{best, sweeps, table, Times};
use crate::operation::{Lent, Operation};
use crate::side::Side;
use crate::workload::{Job, Made};
use std::hint::black_box;

/// The names of the workloads of the deep operations, or of the others; a listing's end in a word of its own.
pub fn names(deep: bool) -> Vec<String> {
    let operations = Operation::ALL.into_iter().filter(|operation| operation.is_deep() == deep);
    let named = |operation: Operation| {
        operation.workloads().into_iter().map(move |workload| format!("{}{}", workload.name(), operation.suffix()))
    };
    operations.flat_map(named).collect()
}

/// The operation and the workload of a name.
pub fn named(name: &str) -> Option<(Operation, &'static dyn Made)> {
    let of = |operation: Operation| {
        let name = name.strip_suffix(operation.suffix())?;
        operation.workloads().into_iter().find(|workload| workload.name() == name).map(|workload| (operation, workload))
    };
    Operation::ALL.into_iter().find_map(of)
}

/// So many calls of one side. Nothing is known of the job while compiling.
pub fn repeat(operation: Operation, side: Side, job: &Job, lent: &mut Lent, calls: u32) {
    for _ in 0..calls {
        black_box(operation.call(side, black_box(job), black_box(lent)));
    }
}

/// Both sides write to the same slices.
fn of(operation: Operation, workload: &dyn Made) -> Times {
    let job = workload.job();
    let mut lent = Lent::largest();
    let listing = if operation.is_deep() { Operation::DeepListing } else { Operation::Listing };
    let items = listing.call(Side::Baseline, &job, &mut lent) as usize;
    let written = match operation {
        Operation::DeepWrite => operation.call(Side::Baseline, &job, &mut lent) as usize,
        _ => (16 + 3 * size_of::<u32>()) * items,
    };
    let sides = [Side::Archive, Side::Baseline];
    let [archive, baseline] = best(&mut |side, count| repeat(operation, sides[side], &job, &mut lent, count));
    Times { name: workload.name(), items, bytes: [job.group.len(), written], archive, baseline }
}

/// A table for each operation, and below it how the time grows with the bytes.
pub fn report() {
    for operation in Operation::ALL {
        let all = sweeps(&operation.workloads(), |workload| of(operation, *workload));
        table(operation.title(), &all);
        growth(&all);
    }
}

/// The pair of workloads with the same content once and twice.
fn growth(all: &[Times]) {
    let named = |name| all.iter().find(|times| times.name == name);
    if let (Some(half), Some(twice)) = (named("deep-half"), named("deep-twice")) {
        let bytes = twice.bytes[0] as f64 / half.bytes[0] as f64;
        let [archive, baseline] = [twice.archive / half.archive, twice.baseline / half.baseline];
        println!("deep-twice / deep-half   bytes {bytes:.2}, archive {archive:.2}, baseline {baseline:.2}");
    }
}
