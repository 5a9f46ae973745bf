//! The check of an operation on one call.
use super::{alike, number, Tally, HELD, NUMBERS, REFUSED};
use crate::damage::Damaged;
use crate::operation::{Lent, Operation};
use crate::workload::Job;

const SHORT_SLICE: u64 = REFUSED + 15_000;

/// The answers to the calls of one operation, and how many of them told of longer lengths.
pub struct Seen {
    pub operation: Operation,
    tally: Tally,
    longer: usize,
}

impl Seen {
    /// Nothing yet, for some of the operations.
    pub fn of(some: impl Fn(Operation) -> bool) -> Vec<Seen> {
        let operations = Operation::ALL.into_iter().filter(|operation| some(*operation));
        operations.map(|operation| Seen { operation, tally: [0; NUMBERS], longer: 0 }).collect()
    }

    /// Counts the answers of the operations to a damaged call.
    pub fn count_all(all: &mut [Seen], name: &str, damaged: &Damaged) {
        all.iter_mut().for_each(|seen| seen.count(name, damaged));
    }

    fn count(&mut self, name: &str, damaged: &Damaged) {
        let (answer, longer) = both(self.operation, name, &damaged.job, damaged.room, damaged.room / 4);
        self.tally[number(answer)] += 1;
        self.longer += usize::from(longer.is_some_and(|longer| longer > 0));
    }

    /// Prints what was seen. Longer lengths must have been told of where they are counted.
    pub fn report(&self, refusals: &[usize]) {
        super::report(&self.tally, refusals);
        if self.operation.counts_longer() {
            println!("longer lengths in {}", self.longer);
            assert!(self.longer > 0, "no length was longer than needed");
        }
    }
}

/// The answer of both sides, lent slices of so many bytes and numbers, and their count of longer lengths.
fn both(operation: Operation, name: &str, job: &Job, bytes: usize, numbers: usize) -> (u64, Option<u64>) {
    let call = |side, lent: &mut Lent| operation.call(side, job, lent);
    let (answer, lent) = alike(name, Lent::filled(bytes, numbers, HELD), call);
    (answer, (operation.counts_longer() && answer < REFUSED).then_some(lent.longer))
}

/// The answer of both sides, lent slices of so many bytes and numbers.
pub fn answer(operation: Operation, name: &str, job: &Job, bytes: usize, numbers: usize) -> u64 {
    both(operation, name, job, bytes, numbers).0
}

/// Slices that are just long enough pass, and one element less gives 15. Lengths in four bytes are all longer than
/// needed, and no others are. Answers the length or the count.
pub fn exact(operation: Operation, name: &str, job: &Job) -> usize {
    let (whole, longer) = both(operation, name, job, 65_536, 65_536);
    assert!(whole < REFUSED, "{name} is refused: {whole}");
    let expected = if name.ends_with("-four") { whole } else { 0 };
    assert!(longer.is_none_or(|longer| longer == expected), "{name}: {longer:?} longer lengths");
    let length = whole as usize;
    let mut rooms = match operation {
        Operation::DeepWrite => vec![(length, 0, whole), (length - 1, 0, SHORT_SLICE)],
        _ => vec![(16 * length, 3 * length, whole)],
    };
    if operation != Operation::DeepWrite && length > 0 {
        rooms.push((16 * length - 1, 3 * length, SHORT_SLICE));
        rooms.push((16 * length, 3 * length - 1, SHORT_SLICE));
    }
    for (bytes, numbers, expected) in rooms {
        let given = answer(operation, name, job, bytes, numbers);
        assert!(given == expected, "{name}: {bytes} bytes and {numbers} numbers give {given}");
    }
    length
}
