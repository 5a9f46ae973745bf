//! The batches of comparisons of the program.
pub mod edges;
pub mod failures;
pub mod input;
pub mod measured;
pub mod pairs;
pub mod random;
pub mod refusals;
pub mod sizes;

use crate::batch::{large, small, Batch};
use crate::compare_jobs::Jobs;

pub const BATCHES: [Batch<Jobs>; 19] = [
    small("01's job and its text", edges::job),
    small("lines of other texts", edges::lines),
    small("job files of too few bytes", pairs::short),
    small("offsets", pairs::offsets),
    small("the last end", pairs::last_end),
    small("sums over 32 bits", pairs::wraps),
    small("16 before all else", refusals::malformed),
    small("every other refusal", refusals::others),
    small("places of refusals", refusals::places),
    small("lines of measured elements", measured::lines),
    small("refusals of measured elements", measured::refusals),
    small("job files around 65,536 bytes", sizes::files),
    small("256 items in an output of 65,536 bytes", sizes::most),
    large("outputs around 65,536 bytes", sizes::outputs),
    small("random jobs", random::jobs),
    small("random jobs, damaged", random::damaged),
    large("standard input in pieces, and from files", input::all),
    large("standard input that fails", failures::input),
    large("standard output that fails", failures::output),
];
