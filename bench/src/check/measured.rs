//! The check of elements that measure themselves (02, point 5): small packs, and damaged variants of them.
use super::operation::Seen;
use super::{number, regrouped, REFUSED};
use crate::damage::{damaged, Damaged};
use crate::random::{seed, Random};
use crate::workload::make::MEASURED;
use crate::workload::pack::any;
use crate::workload::Job;

const PACKS: usize = 20_000;
const NAME: &str = "a pack";
const DEFINED: u8 = 0x05;

/// How often such an element was read, written, refused on reading (9) and on writing (13), and how often 9 and 13 came
/// at one of constant length.
#[derive(Default)]
struct Met {
    read: usize,
    written: usize,
    measured: [usize; 2],
    constant: [usize; 2],
}

/// Panics as the check of the regrouping call does, or where one of these never came.
pub fn run() {
    let mut random = Random::new(seed());
    let mut seen = Seen::of(|operation| !operation.is_deep());
    let mut met = Met::default();
    for _ in 0..PACKS {
        let job = any(&mut random);
        met.count(&job, regrouped(NAME, &Damaged { job: job.clone(), room: 65_536 }));
        let damaged = damaged(&mut random, &job);
        regrouped(NAME, &damaged);
        Seen::count_all(&mut seen, NAME, &Damaged { job, room: 65_536 });
        Seen::count_all(&mut seen, NAME, &damaged);
    }
    let Met { read, written, measured: [span, no_span], constant: [other_span, other_no_span] } = met;
    println!("checked: {PACKS} small packs with measured elements, and as many damaged");
    println!(
        "read {read}, written {written}; 9: {span} and {other_span} others, 13: {no_span} and {other_no_span} others"
    );
    let counts = [read, written, span, no_span, other_span, other_no_span];
    assert!(counts.iter().all(|count| *count > 0), "some answer never came");
}

impl Met {
    fn count(&mut self, job: &Job, answer: u64) {
        let any_measured = (0..job.packs.len() / 20).any(|n| is_measured(job, n));
        let place = (answer % 1_000) as usize;
        match number(answer) {
            0 if answer < REFUSED && any_measured => {
                self.read += usize::from(job.group[5] == DEFINED);
                self.written += usize::from(job.target[5] == DEFINED);
            }
            9 if job.group[5] == DEFINED && is_measured(job, place) => self.measured[0] += 1,
            9 if job.group[5] == DEFINED => self.constant[0] += 1,
            13 if is_measured(job, place) => self.measured[1] += 1,
            13 => self.constant[1] += 1,
            _ => {}
        }
    }
}

/// Whether record n of the pack table marks an element that measures itself.
fn is_measured(job: &Job, n: usize) -> bool {
    job.packs[20 * n..].starts_with(&MEASURED.to_be_bytes())
}
