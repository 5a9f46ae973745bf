//! What a call of the feed is lent, but for the slices that it writes.
use crate::call::Call;
use crate::hex;

#[derive(Clone, PartialEq, Eq)]
pub struct FeedCall {
    pub tags: Vec<u8>,
    pub packs: Vec<u8>,
    pub source: Vec<u8>,
    pub target: Vec<u8>,
    pub feed: Vec<u8>,
}

/// The most bytes of a feed that are printed.
const SHOWN: usize = 2_000;

impl FeedCall {
    /// The same tables and keys with another feed.
    pub fn with_feed(&self, feed: Vec<u8>) -> FeedCall {
        let FeedCall { tags, packs, source, target, .. } = self;
        let [tags, packs, source, target] = [tags, packs, source, target].map(Vec::clone);
        FeedCall { tags, packs, source, target, feed }
    }

    /// The plain call of a triplet.
    pub fn plain(&self, triplet: &[u8]) -> Call {
        let [tags, packs, target] = [&self.tags, &self.packs, &self.target].map(Vec::clone);
        Call { tags, packs, target, group: triplet.to_vec() }
    }

    /// All the inputs as hexadecimal digits.
    pub fn text(&self) -> String {
        let FeedCall { tags, packs, source, target, feed } = self;
        let [tags, packs, source, target] = [tags, packs, source, target].map(|bytes| hex::text(bytes));
        format!("tag table {tags} pack table {packs} source {source} target {target} feed {}", shown(feed))
    }
}

/// The digits of some bytes, cut after the first ones.
pub fn shown(bytes: &[u8]) -> String {
    let front = hex::text(&bytes[..bytes.len().min(SHOWN)]);
    format!("{front} ({} bytes)", bytes.len())
}
