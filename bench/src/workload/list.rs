//! The list of workloads.
use super::Order::{Gaps, Rising, Shuffled};
use super::Values::{Largest, Measured, Of, Short};
use super::{Four, Made, Workload};

#[rustfmt::skip]
pub const WORKLOADS: [Workload; 34] = [
    Workload { name: "13-01-10", from: 0x13, to: 0x01, items: 10, tags: 10, order: Rising, values: Short },
    Workload { name: "01-53-10", from: 0x01, to: 0x53, items: 10, tags: 10, order: Rising, values: Short },
    Workload { name: "03-01-24", from: 0x03, to: 0x01, items: 24, tags: 24, order: Rising, values: Short },
    Workload { name: "13-01-10-of-256", from: 0x13, to: 0x01, items: 10, tags: 256, order: Rising, values: Short },
    Workload { name: "01-53-10-of-256", from: 0x01, to: 0x53, items: 10, tags: 256, order: Rising, values: Short },
    Workload { name: "13-01-256", from: 0x13, to: 0x01, items: 256, tags: 256, order: Rising, values: Short },
    Workload { name: "01-53-256", from: 0x01, to: 0x53, items: 256, tags: 256, order: Rising, values: Short },
    Workload { name: "03-01-256", from: 0x03, to: 0x01, items: 256, tags: 256, order: Rising, values: Short },
    Workload { name: "01-03-256", from: 0x01, to: 0x03, items: 256, tags: 256, order: Rising, values: Short },
    Workload { name: "0B-53-256", from: 0x0B, to: 0x53, items: 256, tags: 256, order: Rising, values: Short },
    Workload { name: "13-01-128-gaps", from: 0x13, to: 0x01, items: 128, tags: 256, order: Gaps, values: Short },
    Workload { name: "01-53-128-gaps", from: 0x01, to: 0x53, items: 128, tags: 256, order: Gaps, values: Short },
    Workload { name: "1B-01-256-shuffled", from: 0x1B, to: 0x01, items: 256, tags: 256, order: Shuffled, values: Short },
    Workload { name: "01-1B-256-shuffled", from: 0x01, to: 0x1B, items: 256, tags: 256, order: Shuffled, values: Short },
    Workload { name: "01-03-60000", from: 0x01, to: 0x03, items: 1, tags: 1, order: Rising, values: Of(60_000) },
    Workload { name: "03-01-60000", from: 0x03, to: 0x01, items: 1, tags: 1, order: Rising, values: Of(60_000) },
    Workload { name: "01-53-60000", from: 0x01, to: 0x53, items: 1, tags: 1, order: Rising, values: Of(60_000) },
    Workload { name: "53-01-60000", from: 0x53, to: 0x01, items: 1, tags: 1, order: Rising, values: Of(60_000) },
    Workload { name: "01-44-256", from: 0x01, to: 0x44, items: 256, tags: 0, order: Rising, values: Short },
    Workload { name: "04-01-256", from: 0x04, to: 0x01, items: 256, tags: 0, order: Rising, values: Short },
    Workload { name: "05-04-256", from: 0x05, to: 0x04, items: 256, tags: 0, order: Rising, values: Short },
    Workload { name: "04-05-256", from: 0x04, to: 0x05, items: 256, tags: 0, order: Rising, values: Short },
    Workload { name: "05-01-16-measured", from: 0x05, to: 0x01, items: 16, tags: 0, order: Rising, values: Measured },
    Workload { name: "01-05-16-measured", from: 0x01, to: 0x05, items: 16, tags: 0, order: Rising, values: Measured },
    Workload { name: "05-04-256-measured", from: 0x05, to: 0x04, items: 256, tags: 0, order: Rising, values: Measured },
    Workload { name: "04-05-256-measured", from: 0x04, to: 0x05, items: 256, tags: 0, order: Rising, values: Measured },
    Workload { name: "02-01-256", from: 0x02, to: 0x01, items: 256, tags: 0, order: Rising, values: Short },
    Workload { name: "01-02-256", from: 0x01, to: 0x02, items: 256, tags: 0, order: Rising, values: Short },
    Workload { name: "empty", from: 0x01, to: 0x53, items: 0, tags: 0, order: Rising, values: Short },
    Workload { name: "empty-of-256", from: 0x01, to: 0x53, items: 0, tags: 256, order: Rising, values: Short },
    Workload { name: "empty-of-256-shuffled", from: 0x01, to: 0x53, items: 0, tags: 256, order: Shuffled, values: Short },
    Workload { name: "03-01-largest", from: 0x03, to: 0x01, items: 256, tags: 256, order: Rising, values: Largest },
    Workload { name: "01-03-largest", from: 0x01, to: 0x03, items: 256, tags: 256, order: Rising, values: Largest },
    Workload { name: "01-01-256", from: 0x01, to: 0x01, items: 256, tags: 0, order: Rising, values: Short },
];

/// The workloads above that the listing is timed with, too.
const LISTED: [&str; 11] = [
    "01-53-10", "13-01-10", "01-53-256", "03-01-256", "13-01-256", "1B-01-256-shuffled", "02-01-256", "04-01-256",
    "05-04-256", "05-04-256-measured", "03-01-largest",
];

/// Workloads of the listing alone.
#[rustfmt::skip]
const LISTINGS: [Workload; 7] = [
    Workload { name: "53-01-10", from: 0x53, to: 0x01, items: 10, tags: 10, order: Rising, values: Short },
    Workload { name: "02-01-10", from: 0x02, to: 0x01, items: 10, tags: 0, order: Rising, values: Short },
    Workload { name: "04-01-10", from: 0x04, to: 0x01, items: 10, tags: 0, order: Rising, values: Short },
    Workload { name: "53-01-256", from: 0x53, to: 0x01, items: 256, tags: 256, order: Rising, values: Short },
    Workload { name: "44-01-256", from: 0x44, to: 0x01, items: 256, tags: 0, order: Rising, values: Short },
    Workload { name: "01-53-128-long", from: 0x01, to: 0x53, items: 128, tags: 128, order: Rising, values: Of(400) },
    Workload { name: "13-01-128-long", from: 0x13, to: 0x01, items: 128, tags: 128, order: Rising, values: Of(400) },
];

/// Those in which every BER item length has four bytes.
#[rustfmt::skip]
const FOUR: [Four; 2] = [
    Four(Workload { name: "01-53-256-four", from: 0x01, to: 0x53, items: 256, tags: 256, order: Rising, values: Short }),
    Four(Workload { name: "13-01-256-four", from: 0x13, to: 0x01, items: 256, tags: 256, order: Rising, values: Short }),
];

/// The workload of a name.
pub fn named(name: &str) -> Option<&'static Workload> {
    WORKLOADS.iter().find(|workload| workload.name == name)
}

/// The workloads that the listing is timed with.
pub fn listed() -> Vec<&'static dyn Made> {
    let too = LISTED.iter().map(|name| named(name).expect("a workload of the list") as &dyn Made);
    too.chain(listings()).collect()
}

/// All workloads.
pub fn all() -> Vec<&'static dyn Made> {
    WORKLOADS.iter().map(|workload| workload as &dyn Made).chain(listings()).collect()
}

fn listings() -> impl Iterator<Item = &'static dyn Made> {
    let shortest = LISTINGS.iter().map(|workload| workload as &dyn Made);
    shortest.chain(FOUR.iter().map(|four| four as &dyn Made))
}
