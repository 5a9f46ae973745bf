//! Groups inside groups (02, point 1): the tree of items. An item whose key is that of a universal or local set is opened
//! as soon as its span is read; its value is its items, and they use the same tag table.
use super::kind::{Group, Sort};
use super::read::{self, Item};
use super::refusal::{Reason, Refusal};
use super::tables::Tables;
use super::{label, outer, Key};
use crate::fault::{planted, Fault};

/// An item, the depth of the set that it stands in, how many bytes its length was sent in and, where it is opened, its
/// own items.
pub struct Node<'a> {
    pub item: Item<'a>,
    pub depth: usize,
    pub length_width: usize,
    pub nested: Option<Vec<Node<'a>>>,
}

/// The bytes that a set's items stand in, the first one's offset, and the set's depth.
#[derive(Clone, Copy)]
struct Place<'a> {
    bytes: &'a [u8],
    begin: usize,
    depth: usize,
}

/// The items of the outermost set, which has depth 1.
pub fn read<'a>(tags: &[u8], group: &'a [u8]) -> Result<Vec<Node<'a>>, Refusal> {
    let tables = tables(tags, group)?;
    let outermost = outer::group(group)?;
    let passes = outermost.sort == Sort::Global && planted(Fault::OutermostGlobalPasses);
    if !is_set(outermost.sort) && !passes {
        return Err(Refusal::whole(Reason::GroupKey));
    }
    let begin = outer::items_begin(group)?;
    nodes(&outermost, &tables, Place { bytes: group, begin, depth: 1 })
}

/// The tag table, which is looked at also where nothing is local. No pack is opened, so that there is no pack table.
fn tables(tags: &[u8], group: &[u8]) -> Result<Tables, Refusal> {
    let universal = group.get(5) == Some(&0x01);
    let tags = if universal && planted(Fault::TagTableOnlyIfLocal) { &[] } else { tags };
    Tables::read(tags, &[])
}

/// A universal or local set.
fn is_set(sort: Sort) -> bool {
    matches!(sort, Sort::Universal | Sort::Local(_))
}

/// The set that an item is opened as, by its key alone. Global sets, packs and what is no group stay bytes.
fn opened_as(key: &Key) -> Option<Group> {
    let mut key = *key;
    if planted(Fault::Byte5NotSeen) {
        key[4] = 0x02;
    }
    let group = Group::of_key(&key)?;
    match group.sort {
        Sort::Universal => (!planted(Fault::UniversalStaysBytes)).then_some(group),
        Sort::Local(_) => Some(group),
        Sort::Global => planted(Fault::GlobalSetsOpened).then_some(group),
        _ if planted(Fault::PacksOpened) => Group::of_key(&universal(&key)),
        _ => None,
    }
}

/// A set's key with 01 in byte 6.
pub fn universal(key: &Key) -> Key {
    let mut key = *key;
    key[5] = 0x01;
    key
}

/// No set is deeper than this.
fn deepest() -> usize {
    match () {
        () if planted(Fault::DeepestIs3) => 3,
        () if planted(Fault::DeepestIs5) => 5,
        () => 4,
    }
}

/// The items of a set, each opened before the next is read.
fn nodes<'a>(set: &Group, tables: &Tables, place: Place<'a>) -> Result<Vec<Node<'a>>, Refusal> {
    let late = if place.depth == 1 { Fault::OpenedAfterAllRead } else { Fault::NestedOpenedAfterAllRead };
    if planted(late) {
        read::items(set, tables, place.bytes, place.begin)?;
    }
    let mut nodes = Vec::new();
    let mut kept_back = None;
    let mut at = place.begin;
    while at < place.bytes.len() {
        let node = node(set, tables, Place { begin: at, ..place }, nodes.len(), &mut kept_back)?;
        at = node.item.end();
        nodes.push(node);
    }
    if planted(Fault::EmptyItemsDropped) {
        nodes.retain(|node| !node.item.value.is_empty());
    }
    kept_back.map_or(Ok(nodes), Err)
}

/// The n-th item of a set. While 17 is given before all 18, an 18 is kept back.
fn node<'a>(
    set: &Group,
    tables: &Tables,
    place: Place<'a>,
    n: usize,
    kept_back: &mut Option<Refusal>,
) -> Result<Node<'a>, Refusal> {
    let Place { bytes, begin, depth } = place;
    let label = label::read(set, tables, n, &bytes[begin..]);
    let item = read::item(set, tables, n, bytes, begin).map_err(|refusal| mistaken(refusal, label, n, depth))?;
    let length_width = item.offset - begin - label.map_or(0, |(_, width)| width);
    let nested = match open(tables, bytes, &item, depth).map_err(|inner| placed(inner, n)) {
        Err(refusal) if refusal.reason == Reason::Nested && planted(Fault::TooDeepFirst) => {
            kept_back.get_or_insert(refusal);
            None
        }
        nested => nested?,
    };
    Ok(Node { item, depth, length_width, nested })
}

/// The items in an item's value, where that is opened. An item of the deepest set is not: its value is not looked at.
fn open<'a>(tables: &Tables, bytes: &'a [u8], item: &Item<'a>, depth: usize) -> Result<Option<Vec<Node<'a>>>, Refusal> {
    let Some(set) = opened_as(&item.key) else {
        return Ok(None);
    };
    let place = Place { bytes: &bytes[..item.end()], begin: item.offset, depth: depth + 1 };
    if depth >= deepest() {
        return Err(Refusal::at(0, if mistaken_depth(&set, tables, place) { Reason::Nested } else { Reason::TooDeep }));
    }
    match nodes(&set, tables, place) {
        Err(Refusal { reason, .. }) if planted(Fault::UnreadableStaysBytes) && reason != Reason::TooDeep => Ok(None),
        Err(Refusal { reason: Reason::Count, .. }) if planted(Fault::Nested257Passes) => Ok(None),
        nodes => nodes.map(Some),
    }
}

/// Whether 18 is given in the place of 17 while a fault is planted.
fn mistaken_depth(set: &Group, tables: &Tables, place: Place) -> bool {
    let looks_inside = planted(Fault::TooDeepLooksInside);
    looks_inside && read::items(set, tables, place.bytes, place.begin).is_err() || planted(Fault::TooDeepIsNested)
}

/// What a refusal from inside an item is for the n-th item that holds it: 17, or 18 whatever does not read.
fn placed(inner: Refusal, n: usize) -> Refusal {
    let reason = match inner.reason {
        Reason::TooDeep => Reason::TooDeep,
        reason if planted(Fault::InnerReason) => reason,
        _ => Reason::Nested,
    };
    if planted(Fault::InnerPlace) {
        return Refusal { reason, ..inner };
    }
    Refusal::at(n, reason)
}

/// The refusal that is given in the place of 9 while a fault is planted.
fn mistaken(refusal: Refusal, label: label::Labelled, n: usize, depth: usize) -> Refusal {
    let opened = label.is_ok_and(|(key, _)| opened_as(&key).is_some());
    match refusal.reason {
        Reason::Span if opened && depth == 1 && planted(Fault::NestedBeforeSpan) => Refusal::at(n, Reason::Nested),
        Reason::Span if opened && depth == 4 && planted(Fault::TooDeepBeforeSpan) => Refusal::at(n, Reason::TooDeep),
        _ => refusal,
    }
}
