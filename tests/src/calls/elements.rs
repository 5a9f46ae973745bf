//! Packs with elements that measure themselves (02, point 5), as the batches of `measured` and its like make them.
use super::literals::{key, ITEM};
use crate::call::Call;
use crate::compare_calls::Calls;
use crate::generate::measured::MARK;
use crate::generate::plan::Plan;
use crate::generate::set::sort_of;
use crate::generate::table::{self, Record};
use crate::generate::wire::{self, enclose};
use crate::groups::kind::Sort;
use crate::groups::Key;
use crate::random::Random;

/// A record's length, and the value of its element.
pub type Element = (u32, Vec<u8>);

pub fn constant(value: &[u8]) -> Element {
    (value.len() as u32, value.to_vec())
}

/// A value that is a triplet or should be one, under FF FF FF FF.
pub fn measured(value: &[u8]) -> Element {
    (MARK, value.to_vec())
}

/// A triplet of the item key of 01's job, with this many bytes as value.
pub fn triplet(length: usize) -> Vec<u8> {
    let value: Vec<u8> = (0..length).map(|i| 0xC0 ^ i as u8).collect();
    enclose(&key(ITEM), &value)
}

/// The n-th record's key, which differs from the keys inside the elements.
pub fn key_of(n: usize) -> Key {
    let mut key = key(ITEM);
    key[10..12].copy_from_slice(&[1 + (n / 100) as u8, 1 + (n % 100) as u8]);
    key
}

/// The key of a group with this byte 6; a global set has a root that every record's key begins with.
pub fn group_key(byte: u8) -> Key {
    let rest = if sort_of(byte) == Sort::Global { "0501010101010F020000" } else { "01010F01000000000000" };
    key(&format!("060E2B3402{byte:02X}{rest}"))
}

/// The elements as items of a plan, whose tables list them in order.
pub fn plan(elements: &[Element]) -> Plan {
    let numbered = || elements.iter().enumerate();
    let tags: Vec<Record> = numbered().map(|(n, _)| (n as u32, key_of(n))).collect();
    let packs = numbered().map(|(n, element)| (element.0, key_of(n))).collect();
    let items = numbered().map(|(n, element)| (key_of(n), element.1.clone())).collect();
    Plan { tags, packs, source: group_key(0x05), target: group_key(0x01), items }
}

/// The plan's items as a group with this byte 6, in shortest form.
pub fn bytes(plan: &Plan, byte: u8) -> Vec<u8> {
    wire::group(&mut Random::new(0), plan, &group_key(byte), false)
}

/// The call from one byte 6 to another.
pub fn from_to(plan: &Plan, source: u8, target: u8) -> Call {
    let [tags, packs] = [&plan.tags, &plan.packs].map(|records| table::bytes(records));
    Call { tags, packs, target: group_key(target).to_vec(), group: bytes(plan, source) }
}

/// The pack is written as a group with each of these bytes 6, and each of them as the pack.
pub fn both_ways(calls: &mut Calls, name: &str, plan: &Plan, others: &[u8]) {
    let pack = bytes(plan, 0x05);
    for byte in others {
        let there = from_to(plan, 0x05, *byte);
        calls.regroup_is(&format!("{name}, to {byte:02X}"), &there, Ok(&bytes(plan, *byte)));
        let back = from_to(plan, *byte, 0x05);
        calls.regroup_is(&format!("{name}, from {byte:02X}"), &back, Ok(&pack));
    }
}
