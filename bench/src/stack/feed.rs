//! The stack of the feed: feeds of one triplet, and of as many as 1 MiB holds.
use super::deepest;
use crate::archive::{perlenhuf_feed, Feed};
use crate::baseline::feed::{answer, Numbers};
use crate::workload::list::all;
use crate::workload::Job;
use std::hint::black_box;
use std::slice::{from_raw_parts, from_raw_parts_mut};

const MOST: usize = 1 << 20;
/// Room for the output of every feed here.
const ROOM: usize = 1 << 24;

/// The job's group is the feed, and its key the source.
struct Task<'a> {
    entry: Feed,
    job: &'a Job,
    output: Vec<u8>,
    numbers: Numbers,
}

/// Calls the task's entry. Its numbers are looked at, so that it is called and not jumped to.
#[rustfmt::skip]
extern "C" fn call(task: &mut Task) {
    let Job { tags, packs, target, group: feed } = task.job;
    // SAFETY: the pointers and the counts are those of slices, the numbers are six; what is written overlaps no other.
    unsafe {
        (task.entry)(
            tags.as_ptr(), tags.len(), packs.as_ptr(), packs.len(), feed.as_ptr(), 16, target.as_ptr(), target.len(),
            feed.as_ptr(), feed.len(), task.output.as_mut_ptr(), task.output.len(), task.numbers.as_mut_ptr(),
        )
    }
    black_box(&task.numbers);
}

/// An entry that does nothing.
#[rustfmt::skip]
unsafe extern "C" fn no_feed(
    _: *const u8, _: usize, _: *const u8, _: usize, _: *const u8, _: usize, _: *const u8, _: usize, _: *const u8, _: usize,
    _: *mut u8, _: usize, _: *mut u64,
) {
}

/// The baseline behind the same signature.
#[rustfmt::skip]
unsafe extern "C" fn baseline_feed(
    tags: *const u8, tags_len: usize, packs: *const u8, packs_len: usize, source: *const u8, source_len: usize,
    target: *const u8, target_len: usize, feed: *const u8, feed_len: usize, output: *mut u8, output_len: usize,
    numbers: *mut u64,
) {
    // SAFETY: the caller gives slices, and six numbers of its own.
    unsafe {
        answer(
            from_raw_parts(tags, tags_len), from_raw_parts(packs, packs_len), from_raw_parts(source, source_len),
            from_raw_parts(target, target_len), from_raw_parts(feed, feed_len),
            from_raw_parts_mut(output, output_len), &mut *numbers.cast(),
        )
    }
}

/// The stack that an entry takes for a feed, its return address included. Every triplet must be regrouped.
fn taken(entry: Feed, job: &Job, count: u64) -> usize {
    let [(taken, regrouped), (nothing, _)] = [entry, no_feed].map(|entry| {
        let mut task = Task { entry, job, output: vec![0; ROOM], numbers: [0; 6] };
        (deepest(&mut task, call), task.numbers[1])
    });
    assert!(regrouped == count, "{regrouped} of {count} triplets are regrouped");
    taken - nothing + size_of::<usize>()
}

/// The most over feeds of the regrouping call's groups, of one triplet and of as many as there is room for. It must not
/// grow with the feed.
pub fn report() {
    println!("\n{:<32}{:>14}{:>14}  deepest in", "entry", "one triplet", "1 MiB");
    let entries: [(&str, Feed); 2] = [("perlenhuf_feed", perlenhuf_feed), ("baseline, feed", baseline_feed)];
    let jobs: Vec<_> = all().into_iter().map(|workload| (workload.name(), workload.job())).collect();
    for (name, entry) in entries {
        let most = jobs.iter().map(|(workload, job)| {
            let count = MOST / job.group.len();
            let many = Job { group: job.group.repeat(count), ..job.clone() };
            [taken(entry, job, 1), taken(entry, &many, count as u64)].map(|bytes| (bytes, *workload))
        });
        let [one, many] = most.fold([(0, ""); 2], |[a, b], [c, d]| [a.max(c), b.max(d)]);
        println!("{name:<32}{:>14}{:>14}  {}", one.0, many.0, many.1);
        assert!(many.0 <= one.0, "{name}: the stack grows with the feed");
    }
}
