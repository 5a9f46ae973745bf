//! The label of an item: how its key stands on the wire (01, "Kinds"). An element of a pack has none. Where there should be
//! one it may be cut off, malformed or, in a local set, not listed (02, point 2).
use super::kind::{Group, Sort};
use super::refusal::Reason;
use super::tables::Tables;
use super::{root, span, Key};
use crate::fault::{planted, Fault};
use crate::keys;
use crate::numbers::{self, Form, Read};

/// A key, and the width of the label that stands for it.
pub type Labelled = Result<(Key, usize), Reason>;

/// The key of the n-th item, whose label stands at the start of some bytes. A pack's n-th element has the n-th record's
/// key.
pub fn read(group: &Group, tables: &Tables, n: usize, bytes: &[u8]) -> Labelled {
    let label = match group.sort {
        Sort::Universal => read_key(bytes),
        Sort::Global => root::read_tag(&group.root, bytes),
        Sort::Local(form) => read_tag(form, group, tables, n, bytes),
        Sort::VariablePack | Sort::DefinedPack => Ok((tables.packs[n].key, 0)),
    };
    label.map_err(mistaken)
}

/// The reason that is given for another while a fault is planted.
fn mistaken(reason: Reason) -> Reason {
    match reason {
        Reason::LabelCutOff if planted(Fault::CutOffIsMalformed) => Reason::LabelMalformed,
        Reason::LabelCutOff if planted(Fault::CutOffIsUnlisted) => Reason::LabelUnlisted,
        Reason::LabelMalformed if planted(Fault::MalformedIsCutOff) => Reason::LabelCutOff,
        Reason::LabelMalformed if planted(Fault::MalformedIsUnlisted) => Reason::LabelUnlisted,
        Reason::LabelUnlisted if planted(Fault::UnlistedIsCutOff) => Reason::LabelCutOff,
        Reason::LabelUnlisted if planted(Fault::UnlistedIsMalformed) => Reason::LabelMalformed,
        reason => reason,
    }
}

/// An item key of a universal set. With fewer than sixteen bytes left it is cut off, whatever they are.
fn read_key(bytes: &[u8]) -> Labelled {
    match bytes.first_chunk() {
        Some(key) if is_item_key(key) => Ok((*key, 16)),
        None if !planted(Fault::CutOffNonKeyIsMalformed) || bytes[0] == 0x06 => Err(Reason::LabelCutOff),
        _ => Err(Reason::LabelMalformed),
    }
}

fn is_item_key(key: &Key) -> bool {
    keys::is_key(key) && !(planted(Fault::GroupKeyIsNoItem) && key[4] == 0x02)
}

fn read_tag(form: Form, group: &Group, tables: &Tables, n: usize, bytes: &[u8]) -> Labelled {
    match numbers::read(form, bytes, 0) {
        Read::Value { value: 0, .. } if planted(Fault::TagZeroIsNone) => Err(Reason::LabelUnlisted),
        Read::Value { value, width, .. } => match tables.key_of(value) {
            Some(key) => Ok((key, width)),
            None if planted(Fault::SpanBeforeUnlisted) && span::read(group, tables, n, &bytes[width..]).is_none() => {
                Err(Reason::Span)
            }
            None => Err(Reason::LabelUnlisted),
        },
        Read::Malformed if bytes.len() == 1 && planted(Fault::LastByte80IsCutOff) => Err(Reason::LabelCutOff),
        Read::Malformed => Err(Reason::LabelMalformed),
        Read::Missing => Err(Reason::LabelCutOff),
    }
}

/// The label of the n-th item.
pub fn write(group: &Group, tables: &Tables, n: usize, key: &Key) -> Option<Vec<u8>> {
    match group.sort {
        Sort::Universal => Some(key.to_vec()),
        Sort::Global => root::write_tag(&group.root, key),
        Sort::Local(form) => write_tag(form, tables, key),
        Sort::VariablePack | Sort::DefinedPack => {
            let record = tables.packs.get(n)?;
            (keys::same(&record.key, key) || planted(Fault::PackKeysNotTested)).then(Vec::new)
        }
    }
}

fn write_tag(form: Form, tables: &Tables, key: &Key) -> Option<Vec<u8>> {
    let tag = tables.tag_of(key)?;
    form.fits(tag).then(|| numbers::encode(form, tag))
}
