//! Counts what agrees and prints what does not.
use std::fmt::Debug;

/// How many mismatches of a run are printed whole.
const SHOWN: u64 = 20;

pub struct Tally {
    pub passed: u64,
    pub failed: u64,
    quiet: bool,
}

impl Tally {
    /// A quiet tally counts mismatches and prints none.
    pub fn new(quiet: bool) -> Tally {
        Tally { passed: 0, failed: 0, quiet }
    }

    /// One comparison.
    pub fn equal<T: PartialEq + Debug>(&mut self, got: T, expected: T, inputs: impl FnOnce() -> String) {
        if got == expected {
            self.passed += 1;
            return;
        }
        self.failed += 1;
        if !self.quiet && self.failed <= SHOWN {
            println!("MISMATCH {}\n  got      {got:02X?}\n  expected {expected:02X?}", inputs());
        }
    }
}
