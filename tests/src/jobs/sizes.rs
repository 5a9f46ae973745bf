//! Job files and outputs around 65,536 bytes.
use super::pairs::MALFORMED;
use crate::call::Call;
use crate::calls::literals::{call, record, value, ITEM, SET_01, SET_03};
use crate::calls::sizes::resized;
use crate::compare_jobs::Jobs;
use crate::generate::job;
use crate::generate::plan::Plan;
use crate::generate::wire::shortest_ber;
use crate::groups::kind::SORTS;
use crate::groups::MOST_BYTES;
use crate::hex;
use crate::random::Random;

/// The job of a universal set with one item of this length, to be written as it is.
fn universal(length: usize) -> Call {
    let ber = |length: usize| hex::text(&shortest_ber(length as u64));
    let contents = format!("{ITEM} {} {}", ber(length), value(length));
    let outer = ber(16 + ber(length).len() / 2 + length);
    call("-", "-", SET_01, &format!("{SET_01} {outer} {contents}"))
}

/// Such a job whose file has this many bytes: 80 stand around the value and its two lengths.
fn universal_of(size: usize) -> Call {
    let mut calls = (6..=8).map(|widths| universal(size - 80 - widths));
    calls.find(|call| job::file(call).len() == size).expect("lengths of three or four bytes each")
}

/// The file of this many bytes.
pub fn universal_file(size: usize) -> Vec<u8> {
    job::file(&universal_of(size))
}

/// 65,536 bytes pass, one more does not, even where the pairs end before it.
pub fn files(jobs: &mut Jobs, _seed: u64) {
    for size in [65_535, 65_536] {
        passing(jobs, size);
    }
    for size in [65_537, 65_538, 65_568, 70_000, 131_072, 200_000] {
        jobs.prints(&format!("a file of {size} bytes"), &universal_file(size), MALFORMED);
    }
    for size in [65_536, 65_537, 200_000] {
        jobs.prints(&format!("{size} bytes 00"), &vec![0x00; size], MALFORMED);
    }
}

/// A file of this many bytes passes; with bytes after it, it does not.
fn passing(jobs: &mut Jobs, size: usize) {
    let call = universal_of(size);
    let (group, length) = (hex::text(&call.group), size - 86);
    let text = format!("OK 1 {}\n{ITEM} 38 {length}\n{group}\n", call.group.len());
    let file = job::file(&call);
    jobs.prints(&format!("a file of {size} bytes"), &file, &text);
    for more in [1, 2, 65_536, 200_000 - size] {
        let longer = [&file[..], &vec![0x00; more]].concat();
        jobs.prints(&format!("a file of {size} bytes and {more} more"), &longer, MALFORMED);
    }
}

/// 255 empty items and one of this length: the output has 4,373 bytes more than its value.
fn many(length: usize) -> Call {
    let items = "07 00".repeat(255);
    let contents = hex::bytes(&format!("{items} 07 82 {length:04X} {}", value(length)));
    let group = format!("{SET_03} 82 {:04X} {}", contents.len(), hex::text(&contents));
    call(&record(7, ITEM), "-", SET_01, &group)
}

/// 256 items and an output of 65,536 bytes, the most of both. One byte more is 14.
pub fn most(jobs: &mut Jobs, _seed: u64) {
    let length = MOST_BYTES - 4_373;
    let empty = |i: usize| format!("{ITEM} {} 0\n", 36 + 17 * i);
    let items: String = (0..255).map(empty).collect();
    let written = format!("{ITEM}00").repeat(255);
    let output = format!("{SET_01}82FFED{written}{ITEM}82{length:04X}{}", value(length));
    let text = format!("OK 256 65536\n{items}{ITEM} 4373 {length}\n{output}\n");
    jobs.prints("an output of 65,536 bytes", &job::file(&many(length)), &text);
    jobs.prints("an output of 65,537 bytes", &job::file(&many(length + 1)), "REFUSED 14 0\n");
}

/// Every kind of set to sets with wider labels.
pub fn outputs(jobs: &mut Jobs, seed: u64) {
    let mut random = Random::new(seed ^ 0xF0);
    let mut run = 0;
    for (source, ..) in SORTS {
        for target in [0x01, 0x1B, 0x7B] {
            for size in [MOST_BYTES - 1, MOST_BYTES, MOST_BYTES + 1] {
                run += usize::from(sized(jobs, &mut random, [source, target], size));
            }
        }
    }
    jobs.tally.equal(run >= 60, true, || format!("{run} jobs with outputs around 65,536 bytes"));
}

/// 256 items of one key whose output has this many bytes, if there is such a job. Answers whether there is.
fn sized(jobs: &mut Jobs, random: &mut Random, [source, target]: [u8; 2], size: usize) -> bool {
    let mut plan = Plan::with_lengths(random, source, target, &[128; 256]);
    let first = plan.items[0].0;
    for item in &mut plan.items {
        item.0 = first;
    }
    plan.make_tables(random);
    let call = resized(random, plan, 255, size, |plan| plan.target);
    call.is_some_and(|call| jobs.call(&call))
}
