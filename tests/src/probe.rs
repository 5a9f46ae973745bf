//! The entries of the crate `probe`, called on slices that lie beside inaccessible pages.
use crate::access;
use crate::guard::{Area, Side};
use std::mem::size_of_val;

// On the side of C a slice is a pointer and a count of elements.
extern "C" {
    fn probe_is_key(k: *const u8, k_count: usize) -> u64;
    fn probe_label_length(k: *const u8, k_count: usize) -> u64;
    fn probe_same(a: *const u8, a_count: usize, b: *const u8, b_count: usize) -> u64;
    fn probe_read(form: u64, s: *const u8, s_count: usize, at: usize, answer: *mut u64, answer_count: usize) -> u64;
    fn probe_read_ber(s: *const u8, s_count: usize, at: usize, answer: *mut u64, answer_count: usize) -> u64;
    fn probe_width(form: u64, n: u64) -> u64;
    fn probe_largest(form: u64) -> u64;
    fn probe_fits(form: u64, n: u64) -> u64;
    fn probe_write(form: u64, out: *mut u8, out_count: usize, at: usize, n: u64) -> u64;
}

/// What `probe_write` answers for a number that is too large, and where there is no room.
pub const TOO_LARGE: u64 = u64::MAX;
pub const NO_ROOM: u64 = u64::MAX - 1;

/// A call's answer, and whether the memory around it is as it was.
#[derive(PartialEq, Eq, Debug)]
pub struct Answer {
    pub answer: u64,
    pub memory_unaltered: bool,
}

/// A call's answer, what it left of the slice that it may write, and whether all else is as it was.
#[derive(PartialEq, Eq, Debug)]
pub struct Left<T> {
    pub answer: u64,
    pub items: Vec<T>,
    pub rest_unaltered: bool,
}

pub struct Probe {
    first: Area,
    second: Area,
}

impl Probe {
    pub fn new() -> Probe {
        access::report();
        Probe { first: Area::new(1), second: Area::new(1) }
    }

    /// The areas that the slices lie in.
    pub fn areas(&self) -> [&Area; 2] {
        [&self.first, &self.second]
    }

    fn on_bytes(&self, side: Side, bytes: &[u8], name: &'static str, entry: Entry) -> Answer {
        let place = self.first.place(side, bytes);
        access::note(name, &[], &[(place, bytes.len())]);
        // SAFETY: the pointer and the count are those of a slice of the area.
        let answer = unsafe { entry(place, bytes.len()) };
        Answer { answer, memory_unaltered: self.first.unaltered(side, bytes) }
    }

    pub fn is_key(&self, side: Side, k: &[u8]) -> Answer {
        self.on_bytes(side, k, "probe_is_key", probe_is_key)
    }

    pub fn label_length(&self, side: Side, k: &[u8]) -> Answer {
        self.on_bytes(side, k, "probe_label_length", probe_label_length)
    }

    pub fn same(&self, side: Side, a: &[u8], b: &[u8]) -> Answer {
        let first = self.first.place(side, a);
        let second = self.second.place(side, b);
        access::note("probe_same", &[], &[(first, a.len()), (second, b.len())]);
        // SAFETY: both pointers and counts are those of slices of the areas.
        let answer = unsafe { probe_same(first, a.len(), second, b.len()) };
        Answer { answer, memory_unaltered: self.first.unaltered(side, a) && self.second.unaltered(side, b) }
    }

    pub fn read(&self, side: Side, form: u64, s: &[u8], at: usize, answer: &[u64]) -> Left<u64> {
        let bytes = self.first.place(side, s);
        let items = self.second.place(side, answer);
        let elements = (items as *const u8, size_of_val(answer));
        access::note("probe_read", &[form, at as u64], &[(bytes, s.len()), elements]);
        // SAFETY: both pointers and counts are those of slices of the areas.
        let result = unsafe { probe_read(form, bytes, s.len(), at, items, answer.len()) };
        let (items, margin) = self.second.take(side, answer.len());
        Left { answer: result, items, rest_unaltered: margin && self.first.unaltered(side, s) }
    }

    pub fn read_ber(&self, side: Side, s: &[u8], at: usize, answer: &[u64]) -> Left<u64> {
        let bytes = self.first.place(side, s);
        let items = self.second.place(side, answer);
        let elements = (items as *const u8, size_of_val(answer));
        access::note("probe_read_ber", &[at as u64], &[(bytes, s.len()), elements]);
        // SAFETY: both pointers and counts are those of slices of the areas.
        let result = unsafe { probe_read_ber(bytes, s.len(), at, items, answer.len()) };
        let (items, margin) = self.second.take(side, answer.len());
        Left { answer: result, items, rest_unaltered: margin && self.first.unaltered(side, s) }
    }

    pub fn write(&self, side: Side, form: u64, out: &[u8], at: usize, n: u64) -> Left<u8> {
        let place = self.first.place(side, out);
        access::note("probe_write", &[form, at as u64, n], &[(place, out.len())]);
        // SAFETY: the pointer and the count are those of a slice of the area.
        let answer = unsafe { probe_write(form, place, out.len(), at, n) };
        let (items, rest_unaltered) = self.first.take(side, out.len());
        Left { answer, items, rest_unaltered }
    }

    pub fn width(&self, form: u64, n: u64) -> u64 {
        // SAFETY: numbers only.
        unsafe { probe_width(form, n) }
    }

    pub fn largest(&self, form: u64) -> u64 {
        // SAFETY: numbers only.
        unsafe { probe_largest(form) }
    }

    pub fn fits(&self, form: u64, n: u64) -> u64 {
        // SAFETY: numbers only.
        unsafe { probe_fits(form, n) }
    }
}

type Entry = unsafe extern "C" fn(*const u8, usize) -> u64;
