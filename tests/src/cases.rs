//! The batches of comparisons of the key and length layer.
pub mod edges;
pub mod guards;
pub mod keys;
pub mod longer;
pub mod random;
pub mod reading;
pub mod writing;

use crate::batch::{large, small, Batch};
use crate::compare::Compare;

pub const BATCHES: [Batch<Compare>; 28] = [
    small("pages around the slices", guards::pages),
    small("margins around the slices", guards::margins),
    small("edges of 01: keys", edges::keys),
    small("edges of 01: lengths", edges::lengths),
    small("edges of 01: BER words", edges::words),
    small("edges of 01: largest values", edges::largest),
    small("keys: every change of one byte", keys::one_byte_changed),
    small("keys: every pair of bytes 5 and 6", keys::bytes_5_and_6),
    large("keys: bytes 9 to 16 of six values", keys::labels),
    small("keys: slices of 0 to 40 bytes", keys::slice_lengths),
    small("keys: equality", keys::equality),
    large("reading: all inputs of 0, 1 and 2 bytes", reading::short_inputs),
    large("reading: 3 to 5 bytes of twelve values", reading::boundary_inputs),
    small("reading: every first byte, 0 to 12 bytes after it", reading::first_bytes),
    small("reading: positions", reading::positions),
    small("reading: elements to answer in", reading::answers),
    small("reading: numbers of forms", reading::form_numbers),
    small("longer BER lengths: worked examples", longer::examples),
    small("longer BER lengths: every width of a value", longer::widths),
    small("longer BER lengths: elements to answer in", longer::elements),
    small("longer BER lengths: random", longer::random),
    large("writing: all numbers to 70,000", writing::small_numbers),
    large("writing: numbers near the edges", writing::edge_numbers),
    small("writing: room and positions", writing::room),
    small("writing: numbers of forms", writing::form_numbers),
    small("random: keys, valid and damaged", random::keys),
    small("random: reading, valid and damaged", random::reading),
    small("random: writing", random::writing),
];
