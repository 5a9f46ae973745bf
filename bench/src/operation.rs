//! The operations beside the regrouping call: the deep write and the deep listing (02, point 1), the listing, and both
//! listings with the count of lengths that were longer than needed (02, point 7).
use crate::side::Side;
use crate::workload::deep::{deep, deep_longer};
use crate::workload::list::listed;
use crate::workload::{Job, Made};
use crate::{archive, baseline};

/// A job's target is not for them, and its pack table not for the deep ones.
#[derive(Clone, Copy, PartialEq, Eq)]
pub enum Operation {
    DeepWrite,
    DeepListing,
    DeepListingLonger,
    Listing,
    ListingLonger,
}

/// What a call is lent: the output or the keys, a listing's numbers, and the count of longer lengths.
#[derive(Clone, PartialEq)]
pub struct Lent {
    pub bytes: Vec<u8>,
    pub numbers: Vec<u32>,
    pub longer: u64,
}

impl Operation {
    pub const ALL: [Operation; 5] = [
        Operation::DeepWrite,
        Operation::DeepListing,
        Operation::DeepListingLonger,
        Operation::Listing,
        Operation::ListingLonger,
    ];

    /// Whether sets inside sets are opened.
    pub fn is_deep(self) -> bool {
        matches!(self, Operation::DeepWrite | Operation::DeepListing | Operation::DeepListingLonger)
    }

    /// Whether longer lengths are counted.
    pub fn counts_longer(self) -> bool {
        matches!(self, Operation::DeepListingLonger | Operation::ListingLonger)
    }

    pub fn title(self) -> &'static str {
        match self {
            Operation::DeepWrite => "deep write",
            Operation::DeepListing => "deep listing",
            Operation::DeepListingLonger => "deep listing, longer",
            Operation::Listing => "listing",
            Operation::ListingLonger => "listing, longer",
        }
    }

    /// The word after a workload's name.
    pub fn suffix(self) -> &'static str {
        match self {
            Operation::DeepWrite => "",
            Operation::DeepListing | Operation::Listing => "-listing",
            Operation::DeepListingLonger | Operation::ListingLonger => "-listing-longer",
        }
    }

    /// The workloads that are timed.
    pub fn workloads(self) -> Vec<&'static dyn Made> {
        match self {
            Operation::DeepWrite | Operation::DeepListing => deep(),
            Operation::DeepListingLonger => deep_longer(),
            Operation::Listing | Operation::ListingLonger => listed(),
        }
    }

    /// One call.
    #[inline(always)]
    pub fn call(self, side: Side, job: &Job, lent: &mut Lent) -> u64 {
        let Job { tags, packs, group, .. } = job;
        let Lent { bytes, numbers, longer } = lent;
        match (self, side) {
            (Operation::DeepWrite, Side::Archive) => archive::deep_write(tags, group, bytes),
            (Operation::DeepWrite, Side::Baseline) => baseline::deep::write::answer(tags, group, bytes),
            (Operation::DeepListing, Side::Archive) => archive::deep_listing(tags, group, bytes, numbers),
            (Operation::DeepListing, Side::Baseline) => baseline::deep::listing::answer(tags, group, bytes, numbers),
            (Operation::DeepListingLonger, Side::Archive) => {
                archive::deep_listing_longer(tags, group, bytes, numbers, longer)
            }
            (Operation::DeepListingLonger, Side::Baseline) => {
                baseline::deep::listing::answer_longer(tags, group, bytes, numbers, longer)
            }
            (Operation::Listing, Side::Archive) => archive::listing(tags, packs, group, bytes, numbers),
            (Operation::Listing, Side::Baseline) => baseline::listing::answer(tags, packs, group, bytes, numbers),
            (Operation::ListingLonger, Side::Archive) => {
                archive::listing_longer(tags, packs, group, bytes, numbers, longer)
            }
            (Operation::ListingLonger, Side::Baseline) => {
                baseline::listing::answer_longer(tags, packs, group, bytes, numbers, longer)
            }
        }
    }
}

impl Lent {
    /// Room for so many bytes and numbers, all bytes the same.
    pub fn filled(bytes: usize, numbers: usize, byte: u8) -> Lent {
        let (number, longer) = (u32::from_be_bytes([byte; 4]), u64::from_be_bytes([byte; 8]));
        Lent { bytes: vec![byte; bytes], numbers: vec![number; numbers], longer }
    }

    /// Room for any output, and for a listing of 4,096 items.
    pub fn largest() -> Lent {
        Lent::filled(65_536, 3 * 4_096, 0)
    }
}
