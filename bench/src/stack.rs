//! How much stack the entries take: a call on a stack of its own, filled with a pattern beforehand (x86-64).
mod deep;
mod feed;

use crate::archive::{perlenhuf_listing, perlenhuf_regroup, probe_listing_longer};
use crate::archive::{DeepListing, DeepListingLonger, DeepWrite, Listing, ListingLonger, Regroup};
use crate::baseline;
use crate::operation::Lent;
use crate::workload::list::all;
use crate::workload::Job;
use std::arch::asm;
use std::hint::black_box;
use std::slice::{from_raw_parts, from_raw_parts_mut};

const AREA: usize = 1 << 20;

/// What the function on the other stack is to call.
enum Entry {
    DeepWrite(DeepWrite),
    DeepListing(DeepListing),
    DeepListingLonger(DeepListingLonger),
    Regroup(Regroup),
    Listing(Listing),
    ListingLonger(ListingLonger),
}

struct Task<'a> {
    entry: Entry,
    job: &'a Job,
    lent: Lent,
}

/// Calls the task's entry. Its answer is looked at, so that it is called and not jumped to.
#[rustfmt::skip]
extern "C" fn call(task: &mut Task) {
    let Job { tags, packs, target, group } = task.job;
    let Lent { bytes, numbers, longer } = &mut task.lent;
    // SAFETY: the pointers and the counts are those of slices; the outputs overlap no other.
    let answer = unsafe {
        match task.entry {
            Entry::DeepWrite(entry) => {
                entry(tags.as_ptr(), tags.len(), group.as_ptr(), group.len(), bytes.as_mut_ptr(), bytes.len())
            }
            Entry::DeepListing(entry) => entry(
                tags.as_ptr(), tags.len(), group.as_ptr(), group.len(),
                bytes.as_mut_ptr(), bytes.len(), numbers.as_mut_ptr(), numbers.len(),
            ),
            Entry::DeepListingLonger(entry) => entry(
                tags.as_ptr(), tags.len(), group.as_ptr(), group.len(),
                bytes.as_mut_ptr(), bytes.len(), numbers.as_mut_ptr(), numbers.len(), longer,
            ),
            Entry::Regroup(entry) => entry(
                tags.as_ptr(), tags.len(), packs.as_ptr(), packs.len(), target.as_ptr(), target.len(),
                group.as_ptr(), group.len(), bytes.as_mut_ptr(), bytes.len(),
            ),
            Entry::Listing(entry) => entry(
                tags.as_ptr(), tags.len(), packs.as_ptr(), packs.len(), group.as_ptr(), group.len(),
                bytes.as_mut_ptr(), bytes.len(), numbers.as_mut_ptr(), numbers.len(),
            ),
            Entry::ListingLonger(entry) => entry(
                tags.as_ptr(), tags.len(), packs.as_ptr(), packs.len(), group.as_ptr(), group.len(),
                bytes.as_mut_ptr(), bytes.len(), numbers.as_mut_ptr(), numbers.len(), longer,
            ),
        }
    };
    black_box(answer);
}

/// How many bytes of a stack filled with this byte the call of a task alters.
fn depth<T>(task: &mut T, call: extern "C" fn(&mut T), fill: u8) -> usize {
    let mut area = vec![fill; AREA];
    let top = (area.as_mut_ptr_range().end as usize) & !15;
    // SAFETY: the area is a stack of its own, aligned to 16 bytes; the old stack pointer is kept in a register that the
    // callee keeps.
    unsafe {
        asm!(
            "mov r12, rsp", "mov rsp, {top}", "call {call}", "mov rsp, r12",
            top = in(reg) top, call = in(reg) call, in("rdi") task, out("r12") _, clobber_abi("C"),
        );
    }
    let altered = area.iter().position(|byte| *byte != fill).unwrap_or(AREA);
    top - (area.as_ptr() as usize + altered)
}

/// The deepest of two runs over different fillings: a byte that equals one filling differs from the other.
fn deepest<T>(task: &mut T, call: extern "C" fn(&mut T)) -> usize {
    depth(task, call, 0xA5).max(depth(task, call, 0x5A))
}

/// Entries that do nothing: what stands on the stack before them is taken off. Their return address is not.
#[rustfmt::skip]
unsafe extern "C" fn no_regroup(
    _: *const u8, _: usize, _: *const u8, _: usize, _: *const u8, _: usize, _: *const u8, _: usize, _: *mut u8, _: usize,
) -> u64 {
    0
}

#[rustfmt::skip]
unsafe extern "C" fn no_listing(
    _: *const u8, _: usize, _: *const u8, _: usize, _: *const u8, _: usize, _: *mut u8, _: usize, _: *mut u32, _: usize,
) -> u64 {
    0
}

#[rustfmt::skip]
unsafe extern "C" fn no_listing_longer(
    _: *const u8, _: usize, _: *const u8, _: usize, _: *const u8, _: usize, _: *mut u8, _: usize, _: *mut u32, _: usize,
    _: *mut u64,
) -> u64 {
    0
}

/// The baseline behind the same signatures.
#[rustfmt::skip]
unsafe extern "C" fn baseline_regroup(
    tags: *const u8, tags_len: usize, packs: *const u8, packs_len: usize, target: *const u8, target_len: usize,
    group: *const u8, group_len: usize, output: *mut u8, output_len: usize,
) -> u64 {
    // SAFETY: the caller gives slices.
    unsafe {
        baseline::regroup::answer(
            from_raw_parts(tags, tags_len), from_raw_parts(packs, packs_len), from_raw_parts(target, target_len),
            from_raw_parts(group, group_len), from_raw_parts_mut(output, output_len),
        )
    }
}

#[rustfmt::skip]
unsafe extern "C" fn baseline_listing(
    tags: *const u8, tags_len: usize, packs: *const u8, packs_len: usize, group: *const u8, group_len: usize,
    keys: *mut u8, keys_len: usize, numbers: *mut u32, numbers_len: usize,
) -> u64 {
    // SAFETY: the caller gives slices.
    unsafe {
        baseline::listing::answer(
            from_raw_parts(tags, tags_len), from_raw_parts(packs, packs_len), from_raw_parts(group, group_len),
            from_raw_parts_mut(keys, keys_len), from_raw_parts_mut(numbers, numbers_len),
        )
    }
}

#[rustfmt::skip]
unsafe extern "C" fn baseline_listing_longer(
    tags: *const u8, tags_len: usize, packs: *const u8, packs_len: usize, group: *const u8, group_len: usize,
    keys: *mut u8, keys_len: usize, numbers: *mut u32, numbers_len: usize, longer: *mut u64,
) -> u64 {
    // SAFETY: the caller gives slices, and a number of its own.
    unsafe {
        baseline::listing::answer_longer(
            from_raw_parts(tags, tags_len), from_raw_parts(packs, packs_len), from_raw_parts(group, group_len),
            from_raw_parts_mut(keys, keys_len), from_raw_parts_mut(numbers, numbers_len), &mut *longer,
        )
    }
}

/// An entry, and one with the same signature that does nothing.
type Pair = fn() -> [Entry; 2];

/// The most of every entry over the workloads.
pub fn report() {
    let entries: [(&str, Pair); 6] = [
        ("perlenhuf_regroup", || [Entry::Regroup(perlenhuf_regroup), Entry::Regroup(no_regroup)]),
        ("perlenhuf_listing", || [Entry::Listing(perlenhuf_listing), Entry::Listing(no_listing)]),
        ("probe_listing_longer", || {
            [Entry::ListingLonger(probe_listing_longer), Entry::ListingLonger(no_listing_longer)]
        }),
        ("baseline", || [Entry::Regroup(baseline_regroup), Entry::Regroup(no_regroup)]),
        ("baseline, listing", || [Entry::Listing(baseline_listing), Entry::Listing(no_listing)]),
        ("baseline, listing, longer", || {
            [Entry::ListingLonger(baseline_listing_longer), Entry::ListingLonger(no_listing_longer)]
        }),
    ];
    println!("{:<32}{:>14}  deepest in", "entry", "stack bytes");
    let jobs: Vec<_> = all().into_iter().rev().map(|workload| (workload.name(), workload.job())).collect();
    most(&entries, &jobs);
    deep::report();
    feed::report();
}

/// The most of every entry over the calls, its return address included.
fn most(entries: &[(&str, Pair)], jobs: &[(&str, Job)]) {
    for (name, pair) in entries {
        let most = jobs.iter().map(|(workload, job)| {
            let [entry, nothing] = pair().map(|entry| deepest(&mut Task { entry, job, lent: Lent::largest() }, call));
            (entry - nothing + size_of::<usize>(), workload)
        });
        if let Some((bytes, workload)) = most.max_by_key(|most| most.0) {
            println!("{name:<32}{bytes:>14}  {workload}");
        }
    }
}
