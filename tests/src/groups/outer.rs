//! The head of a group: its key and its own length (01, refusals 3 to 5 and 7).
use super::kind::Group;
use super::refusal::{Reason, Refusal};
use super::MOST_BYTES;
use crate::fault::{planted, Fault};
use crate::numbers::{self, Form, Read};

/// The target: just sixteen bytes, the key of a group.
pub fn target(bytes: &[u8]) -> Result<Group, Refusal> {
    let key = if planted(Fault::LongTargetIsCut) { bytes.first_chunk() } else { bytes.try_into().ok() };
    key.and_then(Group::of_key).ok_or(Refusal::whole(Reason::Target))
}

/// The group that some bytes begin with, unless they are too many.
pub fn group(bytes: &[u8]) -> Result<Group, Refusal> {
    let most = MOST_BYTES - usize::from(planted(Fault::OversizeOneLess));
    let group = bytes.first_chunk().and_then(Group::of_key).ok_or(Refusal::whole(Reason::GroupKey));
    if bytes.len() > most && !(group.is_err() && planted(Fault::OversizeAfterGroupKey)) {
        return Err(Refusal::whole(Reason::Oversize));
    }
    group
}

/// Where the items begin: the outer length is the number of all bytes after it.
pub fn items_begin(bytes: &[u8]) -> Result<usize, Refusal> {
    match numbers::read(Form::Ber, bytes, 16) {
        Read::Value { value, width, .. } if stands_for(value, bytes.len() - 16 - width) => Ok(16 + width),
        _ => Err(Refusal::whole(Reason::OuterLength)),
    }
}

fn stands_for(length: u64, left: usize) -> bool {
    let left = left as u64;
    length == left || length < left && planted(Fault::BytesAfterGroupNotSeen)
}

/// The outer length of a group that is written.
pub fn write_length(target: &Group, length: usize) -> Vec<u8> {
    let as_items = planted(Fault::OuterLengthAsItems) && target.lengths == Some(Form::Two);
    numbers::encode(if as_items { Form::Two } else { Form::Ber }, length as u64)
}
