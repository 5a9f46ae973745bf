//! What the calls came to: how often each refusal was given, and which pairs of group bytes were accepted.
use crate::call::Call;
use crate::generate::measured::marks;
use crate::groups::kind::SORTS;
use crate::groups::refusal::Refusal;

/// One more than the largest number of a refusal.
pub const NUMBERS: usize = 22;

pub struct Seen {
    pub regroup_calls: u64,
    pub listing_calls: u64,
    pub accepted: u64,
    /// By the refusal's number.
    pub refused: [u64; NUMBERS],
    pub listed: u64,
    pub listing_refused: [u64; NUMBERS],
    /// Accepted listings that gave no longer form, one, and more.
    pub longer: [u64; 3],
    /// Accepted calls with a value that is not empty, by the places of source and target in the list of group bytes.
    pub pairs: [[u64; 26]; 26],
    /// Calls from and to defined-length packs with measured elements: accepted, refused with 9, with 13.
    pub measured: [u64; 3],
    /// Chains, their accepted calls, and the direct calls within one family and between two;
    /// pairs of chains that end with one target.
    pub chains: u64,
    pub chain_calls: u64,
    pub direct: u64,
    pub two_families: u64,
    pub two_chains: u64,
}

impl Seen {
    pub fn new() -> Seen {
        Seen {
            regroup_calls: 0,
            listing_calls: 0,
            accepted: 0,
            refused: [0; NUMBERS],
            listed: 0,
            listing_refused: [0; NUMBERS],
            longer: [0; 3],
            pairs: [[0; 26]; 26],
            measured: [0; 3],
            chains: 0,
            chain_calls: 0,
            direct: 0,
            two_families: 0,
            two_chains: 0,
        }
    }

    pub fn regroup(&mut self, result: Result<usize, Refusal>) {
        self.regroup_calls += 1;
        match result {
            Ok(_) => self.accepted += 1,
            Err(refusal) => self.refused[refusal.number() as usize] += 1,
        }
    }

    /// The same where a defined-length pack and a record of FF FF FF FF are in the call.
    pub fn measured(&mut self, call: &Call, result: Result<usize, Refusal>) {
        if !marks(call) {
            return;
        }
        match result.map_err(Refusal::number) {
            Ok(_) => self.measured[0] += 1,
            Err(9) => self.measured[1] += 1,
            Err(13) => self.measured[2] += 1,
            Err(_) => (),
        }
    }

    /// A listing call, and the number of longer forms that it gave.
    pub fn listing(&mut self, result: Result<usize, Refusal>, longer: u64) {
        self.listing_calls += 1;
        match result {
            Ok(_) => {
                self.listed += 1;
                self.longer[longer.min(2) as usize] += 1;
            }
            Err(refusal) => self.listing_refused[refusal.number() as usize] += 1,
        }
    }

    /// An accepted call with a value that is not empty, from one group byte to another.
    pub fn pair(&mut self, source: u8, target: u8) {
        let place = |byte: u8| SORTS.iter().position(|(group, ..)| *group == byte);
        if let (Some(source), Some(target)) = (place(source), place(target)) {
            self.pairs[source][target] += 1;
        }
    }

    /// How many of the 676 pairs were accepted.
    pub fn accepted_pairs(&self) -> usize {
        self.pairs.iter().flatten().filter(|count| **count > 0).count()
    }
}
