//! Job files whose pairs break one rule: every one of them is 16.
use super::edges::job_of_01;
use crate::compare_jobs::Jobs;
use crate::generate::job::{with_pairs, Pairs};

/// What the program prints for each of them.
pub const MALFORMED: &str = "REFUSED 16 0\n";

/// The pairs of 01's job, and what stands after them.
const PAIRS: Pairs = [(32, 20), (52, 0), (52, 16), (68, 36)];

fn rest() -> Vec<u8> {
    job_of_01()[32..].to_vec()
}

fn malformed(jobs: &mut Jobs, name: &str, pairs: Pairs, rest: &[u8]) {
    jobs.prints(&format!("{name} {pairs:?}"), &with_pairs(pairs, rest), MALFORMED);
}

/// Fewer bytes than the pairs have, and fewer than the pairs say. 32 bytes can be a job: of an empty target.
pub fn short(jobs: &mut Jobs, _seed: u64) {
    let job = job_of_01();
    for count in 0..job.len() {
        jobs.prints("a job that is cut off", &job[..count], MALFORMED);
    }
    for count in 0..=32 {
        jobs.prints("bytes 00", &vec![0x00; count], MALFORMED);
    }
    jobs.prints("four empty parts", &with_pairs([(32, 0); 4], &[]), "REFUSED 3 0\n");
}

/// The first offset is not 32; an offset is not the previous end. All else is right: the ends are where the next part
/// begins, or the file ends.
pub fn offsets(jobs: &mut Jobs, _seed: u64) {
    for first in [0, 1, 12, 31] {
        let mut pairs = PAIRS;
        pairs[0] = (first, 52 - first);
        malformed(jobs, "the first offset below 32", pairs, &rest());
    }
    for n in 0..4 {
        parted(jobs, n);
    }
    for n in 1..4 {
        overlapping(jobs, n);
    }
}

/// A part that begins before the one before it ends.
fn overlapping(jobs: &mut Jobs, n: usize) {
    for by in [1, 4, PAIRS[n].0 - 32, PAIRS[n].0] {
        let mut pairs = PAIRS;
        pairs[n] = (PAIRS[n].0 - by, PAIRS[n].1 + by);
        malformed(jobs, "an overlap", pairs, &rest());
        pairs[n].1 = PAIRS[n].1;
        malformed(jobs, "an overlap, the end before the next offset", pairs, &rest());
    }
}

/// Bytes between a part and the one before it, or the pairs: added, or the part's own.
fn parted(jobs: &mut Jobs, n: usize) {
    for gap in [1, 16, 20, 1_000] {
        let pairs = shifted(n, gap);
        let mut longer = rest();
        let at = PAIRS[n].0 as usize - 32;
        longer.splice(at..at, vec![0x00; gap as usize]);
        malformed(jobs, "a gap", pairs, &longer);
        let mut inside = PAIRS;
        let own = gap.min(PAIRS[n].1);
        inside[n] = (PAIRS[n].0 + own, PAIRS[n].1 - own);
        if own > 0 {
            malformed(jobs, "a gap, taken from the part", inside, &rest());
        }
    }
}

/// The pairs with the offsets from the n-th on larger by this.
fn shifted(n: usize, by: u32) -> Pairs {
    let mut pairs = PAIRS;
    for pair in &mut pairs[n..] {
        pair.0 += by;
    }
    pairs
}

/// The last end is not the file's.
pub fn last_end(jobs: &mut Jobs, _seed: u64) {
    for more in [1, 2, 16, 1_000, 60_000] {
        let longer = [rest(), vec![0x00; more]].concat();
        malformed(jobs, "bytes after the last end", PAIRS, &longer);
    }
    for length in [0, 1, 35, 37, 36 + 256, 36 + 65_536, 36 + (1 << 24), 0x7FFF_FFFF, 0x8000_0024, 0xFFFF_FFFF] {
        let mut pairs = PAIRS;
        pairs[3].1 = length;
        malformed(jobs, "the last length", pairs, &rest());
    }
}

/// Ends over 32 bits, after which the pairs go on as if the sum had wrapped.
pub fn wraps(jobs: &mut Jobs, _seed: u64) {
    let file = PAIRS[3].0 + PAIRS[3].1;
    for n in 0..3 {
        for end in [0_u32, 1, 16, 31] {
            let mut pairs = PAIRS;
            pairs[n].1 = end.wrapping_sub(PAIRS[n].0);
            let after = [(end, 0), (end, 16), (end + 16, file - end - 16)];
            pairs[n + 1..].copy_from_slice(&after[n..]);
            malformed(jobs, "a sum over 32 bits", pairs, &rest());
        }
    }
    for offset in [file + 1, 0x8000_0000, 0xFFFF_FF98, 0xFFFF_FFFF] {
        let mut pairs = PAIRS;
        pairs[2].1 = offset - PAIRS[2].0;
        pairs[3] = (offset, file.wrapping_sub(offset));
        malformed(jobs, "a last sum over 32 bits", pairs, &rest());
    }
}
