//! The regrouping call and the listing of 01 and the deep operations and the feed of 02 in safe Rust, written for speed:
//! what the archive is measured against.
//!
//! `key` and `number` are the layer of bytes, `kind` and `root` say what a group's key decides, `tables` has the lent
//! tables and their look-ups, `read` makes the list of items, `write` measures and writes it, `regroup` is the call.
//! `listing` writes the items' keys and numbers. `deep` goes through sets inside sets, `feed` through a run of triplets.
#![forbid(unsafe_code)]
pub mod deep;
pub mod feed;
mod key;
mod kind;
pub mod listing;
mod number;
mod read;
mod refusal;
pub mod regroup;
mod root;
mod tables;
mod write;
