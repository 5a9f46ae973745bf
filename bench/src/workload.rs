//! Workloads: what each call is given. All is made here, from fixed seeds.
pub mod deep;
pub mod feed;
pub mod list;
pub mod make;
pub mod pack;
mod tree;

use make::{four, with_lengths};

/// What a regrouping call is given, its output slice aside.
#[derive(Clone)]
pub struct Job {
    pub tags: Vec<u8>,
    pub packs: Vec<u8>,
    pub target: Vec<u8>,
    pub group: Vec<u8>,
}

/// What a job is made of.
pub trait Made {
    fn name(&self) -> &'static str;
    /// The call, without its output slices.
    fn job(&self) -> Job;
}

/// How the keys of a table follow one another, and the items the records.
#[derive(Clone, Copy, PartialEq, Eq)]
pub enum Order {
    /// Keys rise with the record's number, and the items stand in the order of the records.
    Rising,
    /// The same, and every second record has an item.
    Gaps,
    /// Keys are random, and the items stand in a random order.
    Shuffled,
}

/// How long the values are.
#[derive(Clone, Copy)]
pub enum Values {
    /// 1 to 24 bytes, as numbers, dates and short names have.
    Short,
    /// Each of so many bytes.
    Of(usize),
    /// As long as a universal set of 65,536 bytes allows.
    Largest,
    /// One triplet each, with 1 to 24 bytes of its own; the pack table marks all elements as such.
    Measured,
}

/// One workload. Tags are 0, 1, 2 and so on, or sparse where the order is shuffled.
pub struct Workload {
    pub name: &'static str,
    /// Byte 6 of the group and of the target.
    pub from: u8,
    pub to: u8,
    pub items: usize,
    pub tags: usize,
    pub order: Order,
    pub values: Values,
}

/// A workload whose group has every BER item length in four bytes, 83 and three digits.
pub struct Four(pub Workload);

impl Made for Four {
    fn name(&self) -> &'static str {
        self.0.name
    }

    fn job(&self) -> Job {
        with_lengths(&self.0.job(), four)
    }
}

impl Workload {
    /// Whether the call needs a pack table: one record for each item.
    fn has_pack(&self) -> bool {
        [self.from, self.to].iter().any(|byte| matches!(byte & 0x1F, 0x04 | 0x05))
    }
}
