//! Refusals (01, the table of "Reading and writing"; 02, point 2).
pub use super::reason::Reason;
use crate::fault::{planted, Fault};

/// A reason, and the place of the item that gave it, or 0.
#[derive(Clone, Copy, PartialEq, Eq, Debug)]
pub struct Refusal {
    pub reason: Reason,
    pub place: usize,
}

impl Refusal {
    /// A refusal of the whole, at place 0.
    pub fn whole(reason: Reason) -> Refusal {
        Refusal { reason, place: 0 }
    }

    pub fn at(place: usize, reason: Reason) -> Refusal {
        Refusal { reason, place: place + usize::from(planted(Fault::PlaceOneMore)) }
    }

    /// While this fault is planted, 8 in the place of 19 and 20, as before 02's point 2.
    pub fn with_old_8(self, fault: Fault) -> Refusal {
        let finer = matches!(self.reason, Reason::LabelMalformed | Reason::LabelUnlisted);
        let reason = if finer && planted(fault) { Reason::LabelCutOff } else { self.reason };
        Refusal { reason, ..self }
    }

    pub fn number(self) -> u64 {
        self.reason as u64
    }
}

/// The one number that the host receives.
pub fn answer(result: Result<usize, Refusal>) -> u64 {
    match result {
        Ok(length) => length as u64,
        Err(refusal) => 1_000_000 + 1_000 * refusal.number() + refusal.place as u64,
    }
}
