//! Elements of defined-length packs that measure themselves (02, point 5): one whole triplet, which is a key, a BER length
//! and that many bytes. The element's value is all of them.
use super::refusal::Reason;
use super::span::Span;
use super::Key;
use crate::fault::{planted, Fault};
use crate::keys;
use crate::numbers::{self, Form, Read};

/// The record's length of an element that measures itself.
const MARK: u64 = 0xFFFF_FFFF;

/// Whether a record's length says that the element measures itself. Every other length is constant.
pub fn is_mark(length: u64) -> bool {
    match length {
        MARK => !planted(Fault::MeasuredIsConstant),
        0xFFFF_FFFE => planted(Fault::OneLessIsMeasured),
        0x7FFF_FFFF => planted(Fault::MarkOf31Bits),
        0xFFFF_FF00..=0xFFFF_FFFD => planted(Fault::MarkByFirstBytes),
        _ => false,
    }
}

/// Both ways that a triplet is asked for, as the faults that let its key pass.
const READING: Fault = Fault::InnerKeyNotTestedReading;
const WRITING: Fault = Fault::InnerKeyNotTestedWriting;

/// The bytes before a triplet's value, the bytes of its value, and whether its length has a longer form than needed.
struct Triplet {
    head: usize,
    length: usize,
    longer: bool,
}

/// The triplet that some bytes begin with.
fn triplet(bytes: &[u8], untested: Fault) -> Option<Triplet> {
    let (key, rest) = bytes.split_first_chunk()?;
    if !is_inner_key(key) && !planted(untested) {
        return None;
    }
    let (width, value, longer) = match numbers::read(Form::Ber, rest, 0) {
        Read::Value { longer: true, .. } if planted(Fault::InnerLongerRefused) => return None,
        Read::Value { value, width, longer } => (width, value, longer),
        Read::Malformed if rest[0] == 0x80 && planted(Fault::Inner80IsZero) => (1, 0, false),
        Read::Missing | Read::Malformed => return None,
    };
    let left = (rest.len() - width) as u64;
    let empty = value == 0 && planted(Fault::EmptyTripletRefused);
    let passes = value <= left || planted(Fault::ShortTripletPasses);
    (passes && !empty).then(|| Triplet { head: 16 + width, length: value.min(left) as usize, longer })
}

/// Any key of 01, not only that of a group, and whatever the record's key is.
fn is_inner_key(key: &Key) -> bool {
    let group = key[4] == 0x02;
    keys::is_key(key) && !(group && planted(Fault::InnerGroupRefused)) && (group || !planted(Fault::InnerOnlyGroups))
}

/// The element that some bytes begin with. What stands after it is left to the next one. The length inside is none of
/// its own.
pub fn read(bytes: &[u8]) -> Option<Span> {
    let Triplet { head, length, longer } = triplet(bytes, READING)?;
    let longer = longer && planted(Fault::InnerLengthsCounted) || planted(Fault::DefinedElementsCounted);
    Some(match () {
        () if planted(Fault::OnlyInnerValue) => Span { width: head, longer, length },
        () if planted(Fault::MeasuredTakesAllLeft) => Span { width: 0, longer, length: bytes.len() },
        () => Span { width: 0, longer, length: head + length },
    })
}

/// Whether a value is just one triplet.
pub fn is_triplet(value: &[u8]) -> bool {
    let whole = |end: usize| end == value.len() || end < value.len() && planted(Fault::ByteAfterTripletPasses);
    triplet(value, WRITING).is_some_and(|triplet| whole(triplet.head + triplet.length))
}

/// The value as it is written: as it is, its length's form included.
pub fn written(value: &[u8]) -> Vec<u8> {
    match triplet(value, WRITING) {
        Some(Triplet { head, length, .. }) if planted(Fault::InnerLengthRewritten) => {
            [&value[..16], &numbers::encode(Form::Ber, length as u64), &value[head..]].concat()
        }
        _ => value.to_vec(),
    }
}

/// The reason why some bytes begin with no element: none of a label's, whatever the key is, but for a planted fault.
pub fn reason(bytes: &[u8]) -> Reason {
    match bytes.first_chunk() {
        Some(key) if keys::is_key(key) => Reason::Span,
        _ if planted(Fault::InnerNonKeyIs8) => Reason::LabelCutOff,
        Some(_) if planted(Fault::InnerNonKeyIs19) => Reason::LabelMalformed,
        _ => Reason::Span,
    }
}
