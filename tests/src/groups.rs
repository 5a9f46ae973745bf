//! Groups (01, "Kinds" to "The host, the listing, the job"): the second implementation, written from the text of 01, with
//! the three causes of 02's point 2 in `label` and `root`, of its point 1 the third number in `listing` and the deep
//! operations in `tree` and `deep`, of its point 4 the playout feed in `triplets`, `image` and `feed`, of its point 5 the
//! elements that measure themselves in `measured`, and of its point 7 the number of longer forms in `longer`.
pub mod deep;
pub mod family;
pub mod feed;
mod image;
pub mod job;
pub mod kind;
pub mod label;
pub mod listing;
mod longer;
mod measured;
pub mod outer;
pub mod read;
mod reason;
pub mod refusal;
pub mod regroup;
pub mod root;
pub mod span;
pub mod tables;
mod tree;
mod triplets;
pub mod write;

/// Sixteen bytes.
pub type Key = [u8; 16];

/// The most bytes of a group, in and out.
pub const MOST_BYTES: usize = 65_536;

/// The most bytes of a feed: 1 MiB.
pub const MOST_FEED: usize = 1_048_576;

/// The most items of a set, and the most records of a table.
pub const MOST_ITEMS: usize = 256;
