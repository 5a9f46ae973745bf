//! How many of the items that a listing lists had a longer BER form than needed (02, point 7). The outer length, fixed
//! layouts and elements of defined-length packs are not counted.
use super::kind::Group;
use super::read::Item;
use super::refusal::{Reason, Refusal};
use super::tree::Node;
use crate::fault::{planted, Fault};
use crate::numbers::{self, Form, Read};

/// The number of a plain listing.
pub fn of_items(group: &[u8], items: &[Item]) -> u64 {
    of_outer(group) + items.iter().filter(|item| item.longer).count() as u64
}

/// The number of a deep listing: every item that is listed counts, by the kind of its own set, a holder's length too.
pub fn of_tree(group: &[u8], nodes: &[Node]) -> u64 {
    let outermost = group.first_chunk().and_then(Group::of_key).and_then(|group| group.lengths);
    of_outer(group) + of_nodes(outermost, nodes)
}

fn of_nodes(outermost: Option<Form>, nodes: &[Node]) -> u64 {
    nodes.iter().map(|node| u64::from(counts(outermost, node)) + inside(outermost, node)).sum()
}

/// The number of the items inside an item that is opened. What stays bytes has none.
fn inside(outermost: Option<Form>, node: &Node) -> u64 {
    let Item { key, value, .. } = node.item;
    match &node.nested {
        Some(nested) => of_nodes(outermost, nested),
        None => u64::from(planted(Fault::InsidePacksCounted) && key[4..6] == [0x02, 0x04] && is_longer(value, 0)),
    }
}

fn counts(outermost: Option<Form>, node: &Node) -> bool {
    match () {
        () if node.nested.is_some() && planted(Fault::HoldersNotCounted) => false,
        () if node.depth > 1 && planted(Fault::NestedNotCounted) => false,
        () if planted(Fault::CountedAsOutermost) => {
            outermost == Some(Form::Ber) && node.length_width > Form::Ber.width(node.item.value.len() as u64)
        }
        () => node.item.longer,
    }
}

/// While it is counted, 1 for a longer outer length.
fn of_outer(group: &[u8]) -> u64 {
    u64::from(planted(Fault::OuterLengthCounted) && is_longer(group, 16))
}

/// Whether the BER length at a position of some bytes has a longer form than needed.
pub fn is_longer(bytes: &[u8], at: usize) -> bool {
    matches!(numbers::read(Form::Ber, bytes, at), Read::Value { longer: true, .. })
}

/// Puts the number where the listing is accepted. A refusal leaves what is there.
pub fn put(result: Result<usize, Refusal>, count: u64, longer: &mut u64) {
    let short = Err(Refusal::whole(Reason::ShortSlice));
    match result {
        Ok(_) if count == 0 && planted(Fault::NoLongerLeft) => (),
        Ok(_) if planted(Fault::LongerAtMost1) => *longer = count.min(1),
        Ok(_) => *longer = count,
        Err(_) if result == short && planted(Fault::ShortSliceGivesLonger) => *longer = count,
        Err(_) if planted(Fault::RefusalClearsLonger) => *longer = 0,
        Err(_) => (),
    }
}
