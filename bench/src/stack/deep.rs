//! The stack of the deep operations: their workloads, the longest values and tables, and a set that is too deep.
use super::{most, Entry, Pair};
use crate::archive::{probe_deep, probe_deep_listing, probe_deep_listing_longer};
use crate::baseline::deep;
use crate::operation::{Lent, Operation};
use crate::side::Side;
use crate::workload::deep::{deeper, BER, DEEP, LONG, MANY};
use crate::workload::{Job, Made};
use std::slice::{from_raw_parts, from_raw_parts_mut};

/// What the operations are held to, in bytes.
const LIMIT: usize = 8_192;
const TOO_DEEP: u64 = 1_017_000;

/// Entries that do nothing.
unsafe extern "C" fn no_write(_: *const u8, _: usize, _: *const u8, _: usize, _: *mut u8, _: usize) -> u64 {
    0
}

#[rustfmt::skip]
unsafe extern "C" fn no_listing(
    _: *const u8, _: usize, _: *const u8, _: usize, _: *mut u8, _: usize, _: *mut u32, _: usize,
) -> u64 {
    0
}

#[rustfmt::skip]
unsafe extern "C" fn no_listing_longer(
    _: *const u8, _: usize, _: *const u8, _: usize, _: *mut u8, _: usize, _: *mut u32, _: usize, _: *mut u64,
) -> u64 {
    0
}

/// The baseline behind the same signatures.
#[rustfmt::skip]
unsafe extern "C" fn baseline_write(
    tags: *const u8, tags_len: usize, group: *const u8, group_len: usize, output: *mut u8, output_len: usize,
) -> u64 {
    // SAFETY: the caller gives slices.
    unsafe {
        deep::write::answer(
            from_raw_parts(tags, tags_len), from_raw_parts(group, group_len), from_raw_parts_mut(output, output_len),
        )
    }
}

#[rustfmt::skip]
unsafe extern "C" fn baseline_listing(
    tags: *const u8, tags_len: usize, group: *const u8, group_len: usize,
    keys: *mut u8, keys_len: usize, numbers: *mut u32, numbers_len: usize,
) -> u64 {
    // SAFETY: the caller gives slices.
    unsafe {
        deep::listing::answer(
            from_raw_parts(tags, tags_len), from_raw_parts(group, group_len),
            from_raw_parts_mut(keys, keys_len), from_raw_parts_mut(numbers, numbers_len),
        )
    }
}

#[rustfmt::skip]
unsafe extern "C" fn baseline_listing_longer(
    tags: *const u8, tags_len: usize, group: *const u8, group_len: usize,
    keys: *mut u8, keys_len: usize, numbers: *mut u32, numbers_len: usize, longer: *mut u64,
) -> u64 {
    // SAFETY: the caller gives slices, and a number of its own.
    unsafe {
        deep::listing::answer_longer(
            from_raw_parts(tags, tags_len), from_raw_parts(group, group_len),
            from_raw_parts_mut(keys, keys_len), from_raw_parts_mut(numbers, numbers_len), &mut *longer,
        )
    }
}

/// The calls: every workload, the longest one also a level deeper, where it is refused with 17.
fn jobs() -> Vec<(&'static str, Job)> {
    let mut jobs: Vec<_> = DEEP.iter().chain(&BER).chain([&MANY, &LONG]).map(|deep| (deep.name, deep.job())).collect();
    let refused = deeper(&LONG.job());
    for operation in Operation::ALL.into_iter().filter(|operation| operation.is_deep()) {
        let answer = operation.call(Side::Archive, &refused, &mut Lent::largest());
        assert!(answer == TOO_DEEP, "a set at depth 5 gives {answer}");
    }
    jobs.push(("deep-long, depth 5", refused));
    jobs
}

/// The most of every entry over the calls.
pub fn report() {
    let entries: [(&str, Pair); 6] = [
        ("probe_deep", || [Entry::DeepWrite(probe_deep), Entry::DeepWrite(no_write)]),
        ("probe_deep_listing", || [Entry::DeepListing(probe_deep_listing), Entry::DeepListing(no_listing)]),
        ("probe_deep_listing_longer", || {
            [Entry::DeepListingLonger(probe_deep_listing_longer), Entry::DeepListingLonger(no_listing_longer)]
        }),
        ("baseline, deep write", || [Entry::DeepWrite(baseline_write), Entry::DeepWrite(no_write)]),
        ("baseline, deep listing", || [Entry::DeepListing(baseline_listing), Entry::DeepListing(no_listing)]),
        ("baseline, deep listing, longer", || {
            [Entry::DeepListingLonger(baseline_listing_longer), Entry::DeepListingLonger(no_listing_longer)]
        }),
    ];
    println!("\n{:<32}{:>14}  deepest in (at most {LIMIT})", "entry", "stack bytes");
    most(&entries, &jobs());
}
