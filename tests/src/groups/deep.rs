//! The deep operations (02, point 1): the tree of items written in universal form, and the deep listing, with the number
//! of longer forms (02, point 7).
use super::refusal::{Reason, Refusal};
use super::regroup::{put, within_limits};
use super::tree::{self, universal, Node};
use super::{longer, Key, MOST_ITEMS};
use crate::fault::{planted, Fault};
use crate::numbers::{encode, Form};

/// An item's key as sent; its value's offset and length, and the depth of the set that the item stands in.
pub type Record = (Key, [u32; 3]);

/// Writes the group with every set inside it in universal form to the start of the output and answers its length. A
/// refusal leaves the output as it was.
pub fn deep(tags: &[u8], group: &[u8], output: &mut [u8]) -> Result<usize, Refusal> {
    put(written(tags, group, output.len()), output)
}

/// The bytes that the operation writes to a slice of this length.
pub fn written(tags: &[u8], group: &[u8], room: usize) -> Result<Vec<u8>, Refusal> {
    let nodes = tree::read(tags, group)?;
    if planted(Fault::ShortSliceBeforeMeasuring) && room < group.len() {
        return Err(Refusal::whole(Reason::ShortSlice));
    }
    let written = whole(group, &nodes);
    within_limits(written.len(), room)?;
    Ok(written)
}

/// The outermost set in universal form.
fn whole(group: &[u8], nodes: &[Node]) -> Vec<u8> {
    let mut key: Key = group[..16].try_into().expect("a group that reads");
    if !planted(Fault::OutermostKeepsByte6) {
        key = universal(&key);
    }
    let contents = contents(nodes);
    [&key[..], &encode(Form::Ber, contents.len() as u64), &contents].concat()
}

/// Items of a universal set: each is key, BER length, value.
fn contents(nodes: &[Node]) -> Vec<u8> {
    nodes.iter().flat_map(item).collect()
}

fn item(node: &Node) -> Vec<u8> {
    let value = match &node.nested {
        Some(nested) => contents(nested),
        None => node.item.value.to_vec(),
    };
    [&key(node)[..], &length(node, value.len()), &value].concat()
}

/// The item's key: that of an opened one has 01 in byte 6.
fn key(node: &Node) -> Key {
    let kept = match &node.nested {
        Some(nested) => {
            planted(Fault::NestedKeyKeepsByte6) || nested.is_empty() && planted(Fault::EmptyNestedKeepsByte6)
        }
        None => true,
    };
    if kept {
        node.item.key
    } else {
        universal(&node.item.key)
    }
}

/// The item's length, in the fewest bytes.
fn length(node: &Node, length: usize) -> Vec<u8> {
    let opened = node.nested.is_some();
    let length = if opened && planted(Fault::NestedLengthOfInput) { node.item.value.len() } else { length };
    let shortest = encode(Form::Ber, length as u64);
    if opened && planted(Fault::NestedLengthAsWide) && node.length_width > shortest.len() {
        let count = node.length_width - 1;
        return [&[0x80 + count as u8], &length.to_be_bytes()[8 - count..]].concat();
    }
    shortest
}

/// Writes every item's key and its three numbers, gives the number of longer forms, and answers the count. A refusal
/// leaves both slices and the number as they were.
pub fn listing(
    tags: &[u8],
    group: &[u8],
    keys: &mut [u8],
    numbers: &mut [u32],
    longer: &mut u64,
) -> Result<usize, Refusal> {
    let found = records(tags, group);
    let count = found.as_ref().map_or(0, |(_, count)| *count);
    let result = found.and_then(|(records, _)| put_records(&records, keys, numbers));
    longer::put(result, count, longer);
    result
}

/// Writes the records, where both slices have room for them.
fn put_records(records: &[Record], keys: &mut [u8], numbers: &mut [u32]) -> Result<usize, Refusal> {
    let room = (keys.len() / 16).min(numbers.len() / 3);
    let room = if planted(Fault::NumbersNotMeasured) { keys.len() / 16 } else { room };
    if records.len() > room {
        if planted(Fault::RefusalClearsOutput) {
            keys.fill(0x00);
        }
        return Err(Refusal::whole(Reason::ShortSlice));
    }
    let places = keys.chunks_exact_mut(16).zip(numbers.chunks_exact_mut(3));
    for ((key, three), (key_place, number_place)) in records.iter().zip(places) {
        key_place.copy_from_slice(key);
        number_place.copy_from_slice(three);
    }
    Ok(records.len())
}

/// Every item, and right after it what stands in it; and how many of them had a longer form than needed.
pub fn records(tags: &[u8], group: &[u8]) -> Result<(Vec<Record>, u64), Refusal> {
    let nodes = tree::read(tags, group)?;
    if planted(Fault::DeepListingGives14) {
        within_limits(whole(group, &nodes).len(), usize::MAX)?;
    }
    let mut records = Vec::new();
    list(&nodes, 0, &mut records);
    if planted(Fault::CountOverAllLevels) && records.len() > MOST_ITEMS {
        return Err(Refusal::at(MOST_ITEMS, Reason::Count));
    }
    Ok((records, longer::of_tree(group, &nodes)))
}

/// Lists the items of a set whose value begins at this offset.
fn list(nodes: &[Node], holder: usize, records: &mut Vec<Record>) {
    let last = planted(Fault::NestedAfterAllOuter);
    for node in nodes {
        let nested = node.nested.as_deref().unwrap_or(&[]);
        if planted(Fault::NestedBeforeHolder) {
            list(nested, node.item.offset, records);
        }
        if node.nested.is_none() || !planted(Fault::HoldersNotListed) {
            records.push(record(node, holder));
        }
        if !last && !planted(Fault::NestedBeforeHolder) {
            list(nested, node.item.offset, records);
        }
    }
    for node in nodes.iter().filter(|_| last) {
        list(node.nested.as_deref().unwrap_or(&[]), node.item.offset, records);
    }
}

fn record(node: &Node, holder: usize) -> Record {
    let base = if planted(Fault::OffsetsInHolder) { holder } else { 0 };
    let depth = node.depth + usize::from(planted(Fault::DepthOneMore));
    let key = if planted(Fault::ListedKeyAsWritten) { key(node) } else { node.item.key };
    (key, [node.item.offset - base, node.item.value.len(), depth].map(|number| number as u32))
}
