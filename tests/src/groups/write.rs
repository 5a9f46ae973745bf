//! Writing items as a group (01, "Reading and writing", refusals 12 and 13).
use super::kind::Group;
use super::read::Item;
use super::refusal::{Reason, Refusal};
use super::tables::Tables;
use super::{label, outer, span};
use crate::fault::{planted, Fault};

/// The group of the target that holds the items.
pub fn group(target: &Group, tables: &Tables, items: &[Item]) -> Result<Vec<u8>, Refusal> {
    if planted(Fault::RecordsOverBeforeItems) {
        every_record_used(target, tables, items.len())?;
    }
    if planted(Fault::LabelsOfAllItemsFirst) {
        for (n, item) in items.iter().enumerate() {
            label_of(target, tables, n, item)?;
        }
    }
    let mut contents = Vec::new();
    for (n, item) in items.iter().enumerate() {
        contents.extend(whole(target, tables, n, item)?);
    }
    every_record_used(target, tables, items.len())?;
    Ok([&target.key[..], &outer::write_length(target, contents.len()), &contents].concat())
}

/// The n-th item: its label, then its length and its value.
fn whole(target: &Group, tables: &Tables, n: usize, item: &Item) -> Result<Vec<u8>, Refusal> {
    let (label, span) = (label_of(target, tables, n, item), span_of(target, tables, n, item));
    if planted(Fault::NoSpanBeforeNoLabel) {
        span.clone()?;
    }
    Ok([label?, span?].concat())
}

fn label_of(target: &Group, tables: &Tables, n: usize, item: &Item) -> Result<Vec<u8>, Refusal> {
    let reason = if planted(Fault::NoLabelIsNoSpan) { Reason::NoSpan } else { Reason::NoLabel };
    label::write(target, tables, n, &item.key).ok_or(Refusal::at(n, reason))
}

/// An item past the last record has no record to be held to; its missing label is found first.
fn span_of(target: &Group, tables: &Tables, n: usize, item: &Item) -> Result<Vec<u8>, Refusal> {
    if target.is_pack() && n >= tables.packs.len() {
        return Ok(Vec::new());
    }
    let measured = span::is_measured(target, tables, n) && planted(Fault::NoTripletIsNoLabel);
    let reason = if measured || planted(Fault::NoLabelIsNoSpan) { Reason::NoLabel } else { Reason::NoSpan };
    span::write(target, tables, n, item.value).ok_or(Refusal::at(n, reason))
}

/// Every record of a pack table must have its item in a pack.
fn every_record_used(target: &Group, tables: &Tables, count: usize) -> Result<(), Refusal> {
    if target.is_pack() && count < tables.packs.len() && !planted(Fault::RecordsOverNotSeen) {
        return Err(Refusal::at(count, Reason::NoLabel));
    }
    Ok(())
}
