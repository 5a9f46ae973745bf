//! Times: both sides in one run, turn by turn; the best of many short runs.
pub mod feed;
pub mod operation;

use crate::side::Side;
use crate::workload::list::WORKLOADS;
use crate::workload::{Job, Made, Workload};
use std::hint::black_box;
use std::time::{Duration, Instant};

/// How long a run takes about, how long a workload is measured at a time, and how many times all are gone through.
const RUN: Duration = Duration::from_micros(150);
const WORKLOAD: Duration = Duration::from_millis(250);
const SWEEPS: usize = 4;
const LARGE: usize = 60_000;

/// What a workload took: nanoseconds a call.
pub struct Times {
    pub name: &'static str,
    pub items: usize,
    pub bytes: [usize; 2],
    pub archive: f64,
    pub baseline: f64,
}

impl Times {
    pub fn ratio(&self) -> f64 {
        self.archive / self.baseline
    }
}

/// What is measured: so many calls of the side with this number.
type Calls<'a> = &'a mut dyn FnMut(usize, u32);

/// Nanoseconds a call, over so many calls.
fn run(side: usize, count: u32, calls: Calls) -> f64 {
    let start = Instant::now();
    calls(side, count);
    start.elapsed().as_nanos() as f64 / f64::from(count)
}

/// How many calls a run has.
fn count(side: usize, calls: Calls) -> u32 {
    let one = (0..5).map(|_| run(side, 1, calls)).fold(f64::MAX, f64::min);
    (RUN.as_nanos() as f64 / one.max(1.0)).clamp(1.0, 1e6) as u32
}

/// The best run of each of N sides, turn by turn.
fn best<const N: usize>(calls: Calls) -> [f64; N] {
    let counts: [u32; N] = std::array::from_fn(|side| count(side, calls));
    let mut best = [f64::MAX; N];
    let start = Instant::now();
    while start.elapsed() < WORKLOAD {
        for side in 0..N {
            best[side] = best[side].min(run(side, counts[side], calls));
        }
    }
    best
}

/// So many calls of one side. Nothing is known of the job while compiling.
pub fn repeat(side: Side, job: &Job, output: &mut [u8], calls: u32) {
    for _ in 0..calls {
        black_box(side.call(black_box(job), black_box(output)));
    }
}

/// Both sides write to one slice, so that its place in memory is the same for both.
fn of(workload: &Workload) -> Times {
    let job = workload.job();
    let mut output = vec![0; 65_536];
    let length = Side::Baseline.call(&job, &mut output) as usize;
    let sides = [Side::Archive, Side::Baseline];
    let [archive, baseline] = best(&mut |side, count| repeat(sides[side], &job, &mut output, count));
    Times { name: workload.name, items: workload.items, bytes: [job.group.len(), length], archive, baseline }
}

/// Nanoseconds that a copy of 60,000 bytes takes.
fn copy() -> f64 {
    let (from, mut to) = (vec![1u8; LARGE], vec![0u8; LARGE]);
    let [best] = best(&mut |_, count| {
        for _ in 0..count {
            black_box(&mut to[..]).copy_from_slice(black_box(&from[..]));
        }
    });
    best
}

/// The geometric mean of the ratios.
fn mean(times: &[Times]) -> f64 {
    (times.iter().map(|times| times.ratio().ln()).sum::<f64>() / times.len() as f64).exp()
}

/// Measures all workloads some times over, so that a busy moment of the machine spoils none.
fn sweeps<W>(workloads: &[W], of: impl Fn(&W) -> Times) -> Vec<Times> {
    let mut all: Vec<Times> = workloads.iter().map(&of).collect();
    for _ in 1..SWEEPS {
        for (times, workload) in all.iter_mut().zip(workloads) {
            let again = of(workload);
            times.archive = times.archive.min(again.archive);
            times.baseline = times.baseline.min(again.baseline);
        }
    }
    all
}

/// Measures all workloads and prints the tables; those of the other operations come last.
pub fn report() {
    let all = sweeps(&WORKLOADS, of);
    table("workload", &all);
    large(&all);
    for name in ["13-01", "01-53"] {
        per_item(&all, name);
    }
    operation::report();
    feed::report();
}

/// The times by workload, and the mean of the ratios.
fn table(title: &str, all: &[Times]) {
    let [archive, baseline] = ["archive ns", "baseline ns"];
    println!("\n{title:<24}{:>6}{:>8}{:>8}{archive:>13}{baseline:>13}{:>8}", "items", "in", "out", "ratio");
    for times in all {
        let Times { name, items, bytes: [before, after], archive, baseline } = times;
        let ratio = times.ratio();
        println!("{name:<24}{items:>6}{before:>8}{after:>8}{archive:>13.0}{baseline:>13.0}{ratio:>8.2}");
    }
    println!("{:<72}{:>8.2}", "geometric mean of the ratios", mean(all));
}

/// The workloads of one large value beside a copy of it.
fn large(all: &[Times]) {
    let copy = (0..SWEEPS).map(|_| copy()).fold(f64::MAX, f64::min);
    println!("\ncopy of {LARGE} bytes: {copy:.0} ns");
    for times in all.iter().filter(|times| times.name.ends_with("60000")) {
        let [archive, baseline] = [times.archive / copy, times.baseline / copy];
        println!("{:<24}archive {archive:.2} copies, baseline {baseline:.2}", times.name);
    }
}

/// The cost of an item: 10 items and 10 tags, 10 items and 256 tags, 256 items and 256 tags.
fn per_item(all: &[Times], name: &str) {
    println!("\n{name}: ns per item");
    for (suffix, tags) in [("-10", 10), ("-10-of-256", 256), ("-256", 256)] {
        if let Some(times) = all.iter().find(|times| times.name.strip_prefix(name) == Some(suffix)) {
            let items = times.items as f64;
            let [archive, baseline] = [times.archive / items, times.baseline / items];
            println!("{:>4} items, {tags:>3} tags: archive {archive:.1}, baseline {baseline:.1}", times.items);
        }
    }
}
