//! Feeds, as the batches put them together.
use crate::calls::literals::{key, record, ITEM};
use crate::feed_call::FeedCall;
use crate::generate::wire::enclose;
use crate::groups::Key;
use crate::hex;

/// A call of these keys, whose tag table lists the item key with 07.
pub fn call(source: &str, target: &str, triplets: &[Vec<u8>]) -> FeedCall {
    call_with(&record(7, ITEM), "-", source, target, triplets)
}

/// A call of these tables and keys.
pub fn call_with(tags: &str, packs: &str, source: &str, target: &str, triplets: &[Vec<u8>]) -> FeedCall {
    let [tags, packs, source, target] = [tags, packs, source, target].map(hex::bytes);
    FeedCall { tags, packs, source, target, feed: triplets.concat() }
}

/// A triplet of this key and value, its length in the fewest bytes.
pub fn triplet(digits: &str, value: &str) -> Vec<u8> {
    enclose(&key(digits), &hex::bytes(value))
}

/// Sixteen bytes that are no key.
pub const NO_KEY: Key = [0x00; 16];

/// A triplet with another key than any source: that of no key, and this many bytes AB.
pub fn other(length: usize) -> Vec<u8> {
    enclose(&NO_KEY, &vec![0xAB; length])
}
