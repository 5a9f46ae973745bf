//! Reading the items of a group (01, "Reading and writing", refusals 8 to 11; 02, point 2, refusals 19 and 20).
use super::kind::Group;
use super::refusal::{Reason, Refusal};
use super::span::{self, Span};
use super::tables::Tables;
use super::{label, Key, MOST_ITEMS};
use crate::fault::{planted, Fault};

/// An item's key, its value, the value's offset from the group's first byte, and whether its length was sent in more
/// bytes than needed.
#[derive(Clone, Copy, PartialEq, Eq, Debug)]
pub struct Item<'a> {
    pub key: Key,
    pub offset: usize,
    pub value: &'a [u8],
    pub longer: bool,
}

impl Item<'_> {
    /// The offset of what stands after the item.
    pub fn end(&self) -> usize {
        self.offset + self.value.len()
    }
}

/// The items that stand in some bytes from an offset on.
pub fn items<'a>(group: &Group, tables: &Tables, bytes: &'a [u8], begin: usize) -> Result<Vec<Item<'a>>, Refusal> {
    let mut items = Vec::new();
    let mut at = begin;
    let mut n = 0;
    while has_next(group, tables, n, at < bytes.len()) {
        let item = item(group, tables, n, bytes, at)?;
        at = item.end();
        items.push(item);
        n += 1;
    }
    if at < bytes.len() && !planted(Fault::SurplusNotSeen) {
        return Err(Refusal::at(n, Reason::Surplus));
    }
    if planted(Fault::EmptyItemsDropped) {
        items.retain(|item| !item.value.is_empty());
    }
    Ok(items)
}

/// The n-th item, whose label stands at an offset of some bytes.
pub fn item<'a>(group: &Group, tables: &Tables, n: usize, bytes: &'a [u8], at: usize) -> Result<Item<'a>, Refusal> {
    let (key, label) = label_of(group, tables, n, &bytes[at..])?;
    let span = span_of(group, tables, n, &bytes[at + label..])?;
    let offset = at + label + span.width;
    Ok(Item { key, offset, value: &bytes[offset..offset + span.length], longer: span.longer })
}

/// Whether an n-th item is due: a set has items while bytes are left, a pack has an element for every record.
fn has_next(group: &Group, tables: &Tables, n: usize, bytes_left: bool) -> bool {
    if group.is_pack() {
        n < tables.packs.len() && (bytes_left || !planted(Fault::PackMayEndEarly))
    } else {
        bytes_left
    }
}

/// The n-th item's key and its label's width. A set has no item after its 256th.
fn label_of(group: &Group, tables: &Tables, n: usize, bytes: &[u8]) -> Result<(Key, usize), Refusal> {
    let most = MOST_ITEMS + usize::from(planted(Fault::Item257Passes));
    let label = label::read(group, tables, n, bytes).map_err(|reason| Refusal::at(n, reason));
    if n == most && !(label.is_err() && planted(Fault::CountAfterLabel)) {
        return Err(Refusal::at(n, Reason::Count));
    }
    label
}

fn span_of(group: &Group, tables: &Tables, n: usize, bytes: &[u8]) -> Result<Span, Refusal> {
    span::read(group, tables, n, bytes).ok_or_else(|| Refusal::at(n, span::reason(group, tables, n, bytes)))
}
