//! The pages and the margins around the slices: they show what they are there to show.
use crate::compare::Compare;
use crate::compare_calls::Calls;
use crate::compare_deep::Deep;
use crate::compare_feed::Feeds;
use crate::guard::{Area, Side};
use crate::tally::Tally;
use std::ffi::c_int;

extern "C" {
    fn pipe(ends: *mut c_int) -> c_int;
    fn close(file: c_int) -> c_int;
    fn read(file: c_int, bytes: *mut u8, count: usize) -> isize;
    fn write(file: c_int, bytes: *const u8, count: usize) -> isize;
}

/// The system reads a byte for `write` and stores one for `read`: it refuses both where the page is inaccessible.
fn accessible(ends: [c_int; 2], byte: *mut u8) -> [bool; 2] {
    // SAFETY: the system checks the address; at most one byte is in the pipe.
    unsafe {
        let can_read = write(ends[1], byte, 1) == 1;
        if can_read {
            read(ends[0], byte, 1);
        }
        let mut token = 0x00;
        write(ends[1], &token, 1);
        let can_write = read(ends[0], byte, 1) == 1;
        if !can_write {
            read(ends[0], &mut token, 1);
        }
        [can_read, can_write]
    }
}

pub fn pages(compare: &mut Compare, _seed: u64) {
    pages_of(&mut compare.tally, &compare.probe.areas());
}

pub fn margins(compare: &mut Compare, _seed: u64) {
    margins_of(&mut compare.tally, &compare.probe.areas());
}

/// The pages of both calls' areas.
pub fn pages_of_calls(calls: &mut Calls, _seed: u64) {
    pages_of(&mut calls.tally, &calls.host.areas());
}

/// The margins of both calls' areas.
pub fn margins_of_calls(calls: &mut Calls, _seed: u64) {
    margins_of(&mut calls.tally, &calls.host.areas());
}

/// The pages of the deep operations' areas.
pub fn pages_of_deep(deep: &mut Deep, _seed: u64) {
    pages_of(&mut deep.tally, &deep.probe.areas());
}

/// The margins of the deep operations' areas.
pub fn margins_of_deep(deep: &mut Deep, _seed: u64) {
    margins_of(&mut deep.tally, &deep.probe.areas());
}

/// The pages of the feed's areas.
pub fn pages_of_feed(feeds: &mut Feeds, _seed: u64) {
    pages_of(&mut feeds.tally, &feeds.feeder.areas());
}

/// The margins of the feed's areas.
pub fn margins_of_feed(feeds: &mut Feeds, _seed: u64) {
    margins_of(&mut feeds.tally, &feeds.feeder.areas());
}

fn pages_of(tally: &mut Tally, areas: &[&Area]) {
    let mut ends = [0; 2];
    // SAFETY: room for two numbers.
    assert!(unsafe { pipe(ends.as_mut_ptr()) } == 0, "pipe failed");
    for area in areas {
        for byte in area.bytes_inside() {
            tally.equal(accessible(ends, byte), [true; 2], || format!("a byte of the area {byte:?}"));
        }
        for byte in area.bytes_outside() {
            tally.equal(accessible(ends, byte), [false; 2], || format!("a byte beside the area {byte:?}"));
        }
    }
    for end in ends {
        // SAFETY: an end of the pipe made above.
        unsafe { close(end) };
    }
}

/// A byte stored right beside a slice is seen.
fn margins_of(tally: &mut Tally, areas: &[&Area]) {
    for side in Side::BOTH {
        for count in 0..=20 {
            let got: Vec<[bool; 2]> = areas.iter().map(|area| seen(area, side, count)).collect();
            tally.equal(got, vec![[true, false]; areas.len()], || format!("margin {side:?} of {count} bytes"));
        }
    }
}

/// Whether a slice and its margin are said to be unaltered: at first, and after a byte is stored beside the slice.
fn seen(area: &Area, side: Side, count: usize) -> [bool; 2] {
    let bytes = vec![0x07_u8; count];
    area.place(side, &bytes);
    let before = area.unaltered(side, &bytes);
    // SAFETY: a byte of the area.
    unsafe { *area.nearest(side, count) = 0x00 };
    [before, area.unaltered(side, &bytes)]
}
