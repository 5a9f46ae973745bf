//! Triplets of a feed (02, point 4): any sixteen key bytes, a BER length, a value.
use super::Key;
use crate::fault::{planted, Fault};
use crate::keys;
use crate::numbers::{self, encode, Form, Read};

/// A triplet's key, its value, and all its bytes as they came.
#[derive(Clone, Copy)]
pub struct Triplet<'a> {
    pub key: Key,
    pub value: &'a [u8],
    pub bytes: &'a [u8],
}

impl Triplet<'_> {
    /// The same triplet with its length in the fewest bytes.
    pub fn shortened(&self) -> Vec<u8> {
        [&self.key[..], &encode(Form::Ber, self.value.len() as u64), self.value].concat()
    }
}

/// The triplets of a feed up to the first bad one, and the bytes from that on.
pub fn read(feed: &[u8]) -> (Vec<Triplet<'_>>, &[u8]) {
    let mut triplets = Vec::new();
    let mut left = feed;
    while let Some(triplet) = first(left) {
        left = &left[triplet.bytes.len()..];
        triplets.push(triplet);
    }
    (triplets, left)
}

/// The triplet that some bytes begin with, unless its key or length is cut off, its length is malformed, or its value is
/// longer than what is left.
fn first(bytes: &[u8]) -> Option<Triplet<'_>> {
    let key: &Key = bytes.first_chunk()?;
    let Read::Value { value, width, longer } = numbers::read(Form::Ber, bytes, 16) else {
        return None;
    };
    let refused = longer && planted(Fault::LongerTripletIsBad) || !keys::is_key(key) && planted(Fault::NonKeyIsBad);
    let begin = 16 + width;
    let end = end_of(begin, usize::try_from(value).ok()?, bytes.len()).filter(|_| !refused)?;
    let bytes = bytes.get(..end)?;
    Some(Triplet { key: *key, value: bytes.get(begin..).unwrap_or(&[]), bytes })
}

/// Where a value of this length ends.
fn end_of(begin: usize, length: usize, left: usize) -> Option<usize> {
    if planted(Fault::TripletEndWraps) {
        return Some(begin.wrapping_add(length).max(16));
    }
    let end = begin.checked_add(length)?;
    Some(if planted(Fault::LastValueMayEndEarly) { end.min(left) } else { end })
}
