//! What the deep calls came to: how often each refusal was given, and which sets were opened in which.
use crate::compare_deep::is_opened;
use crate::generate::nested::SETS;
use crate::groups::deep::Record;
use crate::groups::refusal::Refusal;
use crate::seen::NUMBERS;

pub struct SeenDeep {
    pub accepted: u64,
    pub listed: u64,
    /// By the refusal's number.
    pub refused: [u64; NUMBERS],
    pub listing_refused: [u64; NUMBERS],
    /// Accepted listings that gave no longer form, one, and more.
    pub longer: [u64; 3],
    /// Opened items of accepted calls, by the places of the holding set and the opened one in the list of sets.
    pub pairs: [[u64; SETS.len()]; SETS.len()],
    /// Items of accepted calls, by the depth of the set that they stand in.
    pub depths: [u64; 5],
    /// The most items of an accepted listing.
    pub most: usize,
}

impl SeenDeep {
    pub fn new() -> SeenDeep {
        SeenDeep {
            accepted: 0,
            listed: 0,
            refused: [0; NUMBERS],
            listing_refused: [0; NUMBERS],
            longer: [0; 3],
            pairs: [[0; SETS.len()]; SETS.len()],
            depths: [0; 5],
            most: 0,
        }
    }

    pub fn write(&mut self, result: Result<usize, Refusal>) {
        match result {
            Ok(_) => self.accepted += 1,
            Err(refusal) => self.refused[refusal.number() as usize] += 1,
        }
    }

    /// A deep listing, and the number of longer forms that it gave.
    pub fn listing(&mut self, result: Result<usize, Refusal>, longer: u64) {
        match result {
            Ok(count) => {
                self.listed += 1;
                self.longer[longer.min(2) as usize] += 1;
                self.most = self.most.max(count);
            }
            Err(refusal) => self.listing_refused[refusal.number() as usize] += 1,
        }
    }

    /// The items of an accepted call, whose outermost set has this byte 6.
    pub fn tree(&mut self, outermost: u8, records: &[Record]) {
        let place = |byte: u8| SETS.iter().position(|set| *set == byte);
        let mut holders = [outermost; 6];
        for (key, [_, _, depth]) in records {
            let depth = (*depth as usize).min(4);
            self.depths[depth] += 1;
            if is_opened(key) {
                if let (Some(holder), Some(opened)) = (place(holders[depth]), place(key[5])) {
                    self.pairs[holder][opened] += 1;
                }
                holders[depth + 1] = key[5];
            }
        }
    }
}
