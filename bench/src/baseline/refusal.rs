//! Refusals: a number of the papers' tables, and a place.
#[allow(dead_code)]
#[path = "../../../tests/src/groups/reason.rs"]
mod reason;

pub use reason::Reason;

#[derive(Clone, Copy)]
pub struct Refusal {
    pub reason: Reason,
    pub place: u16,
}

impl Reason {
    /// The refusal of the whole call.
    pub fn whole(self) -> Refusal {
        self.at(0)
    }

    pub fn at(self, place: usize) -> Refusal {
        Refusal { reason: self, place: place as u16 }
    }
}

impl Refusal {
    /// The number that a host receives.
    pub fn answer(self) -> u64 {
        1_000_000 + 1_000 * self.reason as u64 + u64::from(self.place)
    }
}
