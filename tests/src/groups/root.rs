//! The roots and the tags of global sets (01, "Kinds", "Global").
use super::label::Labelled;
use super::refusal::Reason;
use super::Key;
use crate::fault::{planted, Fault};
use crate::keys;

/// The most bytes of a tag.
const MOST: usize = 12;

/// The root that a global set's key gives: the key's first c bytes, then its designator.
pub fn of_key(key: &Key) -> Option<Vec<u8>> {
    let c = usize::from(key[6]) - 1;
    let designator = &key[8..keys::label_length(key)];
    let g = designator.len();
    let longest = if planted(Fault::RootOf16Bytes) { 16 } else { 15 };
    let shortest = if planted(Fault::RootOf3Bytes) { 3 } else { 4 };
    let within = c <= 8 && (2..=8).contains(&g) && (shortest..=longest).contains(&(c + g));
    within.then(|| [&key[..c], designator].concat())
}

/// The bytes that stand for an item's key in a set of this root: its tag, and 00 if that has fewer than 12 bytes.
pub fn write_tag(root: &[u8], key: &Key) -> Option<Vec<u8>> {
    if !key.starts_with(root) {
        return None;
    }
    let mut bytes = key.get(root.len()..keys::label_length(key))?.to_vec();
    if bytes.is_empty() && !planted(Fault::EmptyTagWritten) {
        return None;
    }
    if bytes.len() < MOST || planted(Fault::TwelveByteTagClosed) {
        bytes.push(0x00);
    }
    Some(bytes)
}

/// The key of the tag at the start of some bytes, and how many bytes the tag has there. A tag that does not end is cut
/// off, whatever it holds.
pub fn read_tag(root: &[u8], bytes: &[u8]) -> Labelled {
    let Some((tag, width)) = cut_tag(bytes) else {
        let sound = key_of(root, bytes).is_some() || !planted(Fault::CutOffBadTagIsMalformed);
        return Err(if sound { Reason::LabelCutOff } else { Reason::LabelMalformed });
    };
    if tag.is_empty() && planted(Fault::EmptyTagIsCutOff) {
        return Err(Reason::LabelCutOff);
    }
    key_of(root, tag).map(|key| (key, width)).ok_or(Reason::LabelMalformed)
}

/// The key of a tag without its ending 00, unless the tag is malformed.
fn key_of(root: &[u8], tag: &[u8]) -> Option<Key> {
    if tag.is_empty() && !planted(Fault::EmptyTagRead) {
        return None;
    }
    join(root, tag).filter(keys::is_key)
}

/// The tag at the start of some bytes without its ending 00, and its width with that.
fn cut_tag(bytes: &[u8]) -> Option<(&[u8], usize)> {
    let seen = &bytes[..bytes.len().min(MOST)];
    match (0..seen.len()).find(|i| ends_at(seen, *i)) {
        Some(11) if planted(Fault::TwelfthZeroJoined) => Some((seen, MOST)),
        Some(end) => Some((&seen[..end], end + 1)),
        None if seen.len() == MOST || planted(Fault::TagCutOffIsRead) => Some((seen, seen.len())),
        None => None,
    }
}

/// A 00 that does not stand right after one of the tag's own bytes of 80 or more.
fn ends_at(tag: &[u8], i: usize) -> bool {
    let inside_word = i > 0 && tag[i - 1] >= 0x80 && !planted(Fault::TagEndsInsideWord);
    tag[i] == 0x00 && !inside_word
}

/// A root and a tag, filled with 00 to sixteen bytes.
fn join(root: &[u8], tag: &[u8]) -> Option<Key> {
    let mut joined = [root, tag].concat();
    if joined.len() > 16 && !planted(Fault::LongJoinIsCut) {
        return None;
    }
    joined.resize(16, 0x00);
    joined.try_into().ok()
}
