//! The image of a triplet (02, point 4): what goes out for it, and which of the three counts it is in.
use super::refusal::Refusal;
use super::triplets::Triplet;
use super::{regroup, MOST_BYTES};
use crate::fault::{planted, Fault};
use crate::feed_call::FeedCall;
use crate::keys;
use std::borrow::Cow;

#[derive(Clone, Copy, PartialEq, Eq)]
pub enum Sort {
    Regrouped,
    Refused,
    Other,
}

/// The bytes that go out, the count that they are in, and why the plain call refused them.
pub struct Image<'a> {
    pub bytes: Cow<'a, [u8]>,
    pub sort: Sort,
    pub refusal: Option<Refusal>,
}

/// The images of all triplets. The room is looked at only while a fault is planted.
pub fn images<'a>(call: &FeedCall, triplets: &[Triplet<'a>], room: usize) -> Vec<Image<'a>> {
    let mut left = room;
    let image = |triplet: &Triplet<'a>| {
        let image = image(call, triplet, left);
        left = left.saturating_sub(image.bytes.len());
        image
    };
    triplets.iter().map(image).collect()
}

fn image<'a>(call: &FeedCall, triplet: &Triplet<'a>, left: usize) -> Image<'a> {
    if !is_source(call, triplet) {
        return other(triplet);
    }
    let room = if planted(Fault::PlainCallWithRoomLeft) { left.min(MOST_BYTES) } else { MOST_BYTES };
    match regroup::written(&call.tags, &call.packs, &call.target, triplet.bytes, room) {
        Ok(_) if call.source == call.target && planted(Fault::EqualKeysCopied) => {
            Image { bytes: triplet.bytes.into(), sort: Sort::Regrouped, refusal: None }
        }
        Ok(_) if call.source == call.target && planted(Fault::EqualKeysAreOthers) => other(triplet),
        Ok(written) => Image { bytes: written.into(), sort: Sort::Regrouped, refusal: None },
        Err(refusal) => refused(triplet, refusal),
    }
}

/// A triplet that the plain call refuses goes out as it came.
fn refused<'a>(triplet: &Triplet<'a>, refusal: Refusal) -> Image<'a> {
    let sort = match () {
        () if planted(Fault::RefusedIsOther) => Sort::Other,
        () if planted(Fault::RefusedIsRegrouped) => Sort::Regrouped,
        () => Sort::Refused,
    };
    let bytes = match () {
        () if planted(Fault::RefusedDropped) => Cow::default(),
        () if planted(Fault::RefusedShortened) => triplet.shortened().into(),
        () => triplet.bytes.into(),
    };
    Image { bytes, sort, refusal: Some(refusal) }
}

/// A triplet with another key goes out as it came.
fn other<'a>(triplet: &Triplet<'a>) -> Image<'a> {
    let bytes = if planted(Fault::OthersShortened) { triplet.shortened().into() } else { triplet.bytes.into() };
    let refused = planted(Fault::NonKeyIsRefused) && !keys::is_key(&triplet.key);
    Image { bytes, sort: if refused { Sort::Refused } else { Sort::Other }, refusal: None }
}

/// Whether a triplet has the source key: all sixteen bytes.
fn is_source(call: &FeedCall, triplet: &Triplet) -> bool {
    let Some(source) = call.source.first_chunk() else {
        return false;
    };
    let key = &triplet.key;
    keys::same(source, key)
        || planted(Fault::TargetKeyIsSource) && call.target == key
        || planted(Fault::SourceOf15Bytes) && source[..15] == key[..15]
        || planted(Fault::SourceWithoutByte6) && source[..5] == key[..5] && source[6..] == key[6..]
}
