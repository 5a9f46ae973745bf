//! The span of an item: its length on the wire, and its value (01, "Kinds" and "Lent tables"; 02, point 5).
use super::kind::{Group, Sort};
use super::measured;
use super::refusal::Reason;
use super::tables::Tables;
use crate::fault::{planted, Fault};
use crate::numbers::{self, Read};

/// The width of an item's length, whether fewer bytes would do, and the value's length.
#[derive(Clone, Copy)]
pub struct Span {
    pub width: usize,
    pub longer: bool,
    pub length: usize,
}

/// The span of the n-th item, whose length stands at the start of some bytes.
pub fn read(group: &Group, tables: &Tables, n: usize, bytes: &[u8]) -> Option<Span> {
    let Some(form) = group.lengths else {
        return element(tables.packs[n].number, bytes);
    };
    let (width, longer, length) = match numbers::read(form, bytes, 0) {
        Read::Value { value, width, longer } => (width, longer && !passed_over(group.sort), value),
        Read::Missing | Read::Malformed => return None,
    };
    let value = bytes[width..].get(..usize::try_from(length).ok()?)?;
    let allowed = !breaks_column(group, tables, n, value);
    allowed.then_some(Span { width, longer, length: value.len() })
}

/// The span of an element of a defined-length pack, which has no length of its own, by its record's length.
fn element(number: u64, bytes: &[u8]) -> Option<Span> {
    if measured::is_mark(number) {
        return measured::read(bytes);
    }
    let refused = number == 0 && planted(Fault::DefinedLengthZeroRefused);
    let length = usize::try_from(number).ok().filter(|length| *length <= bytes.len() && !refused)?;
    Some(Span { width: 0, longer: planted(Fault::DefinedElementsCounted), length })
}

/// Whether an item's longer form is passed over while a fault is planted.
fn passed_over(sort: Sort) -> bool {
    match sort {
        Sort::Global => planted(Fault::GlobalItemsNotCounted),
        Sort::VariablePack => planted(Fault::PackElementsNotCounted),
        _ => false,
    }
}

/// The reason why the n-th item's span is not read.
pub fn reason(group: &Group, tables: &Tables, n: usize, bytes: &[u8]) -> Reason {
    if is_measured(group, tables, n) {
        measured::reason(bytes)
    } else {
        Reason::Span
    }
}

/// Whether the n-th item is an element that measures itself.
pub fn is_measured(group: &Group, tables: &Tables, n: usize) -> bool {
    group.sort == Sort::DefinedPack && measured::is_mark(tables.packs[n].number)
}

/// The n-th item on the wire, without its label: its length and its value.
pub fn write(group: &Group, tables: &Tables, n: usize, value: &[u8]) -> Option<Vec<u8>> {
    if breaks_column(group, tables, n, value) {
        return None;
    }
    let length = value.len() as u64;
    match group.lengths {
        Some(form) if form.fits(length) || planted(Fault::LongValuePasses) => {
            Some([&numbers::encode(form, length), value].concat())
        }
        Some(_) => None,
        None if is_measured(group, tables, n) => Some(measured::written(value)),
        None => Some(value.to_vec()),
    }
}

/// The length column binds defined-length packs only: a value has the record's length or, where that says so, is one
/// triplet.
fn breaks_column(group: &Group, tables: &Tables, n: usize, value: &[u8]) -> bool {
    let Some(number) = tables.packs.get(n).map(|record| record.number) else {
        return false;
    };
    let marked = measured::is_mark(number);
    let bound = match group.sort {
        Sort::DefinedPack => !planted(Fault::DefinedLengthNotTested),
        Sort::VariablePack if marked => planted(Fault::VariablePackMeasured),
        Sort::VariablePack => planted(Fault::VariablePackHeldToColumn),
        _ => false,
    };
    let zero = value.is_empty() && planted(Fault::DefinedLengthZeroRefused);
    bound && if marked { !measured::is_triplet(value) } else { value.len() as u64 != number || zero }
}
