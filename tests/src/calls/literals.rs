//! Inputs as hexadecimal digits.
use crate::call::Call;
use crate::groups::Key;
use crate::hex;

/// The keys of groups that differ in byte 6 only, the group key and the target of 01's job among them.
pub const SET_01: &str = "060E2B34020101010F01000000000000";
pub const SET_03: &str = "060E2B34020301010F01000000000000";
pub const SET_0B: &str = "060E2B34020B01010F01000000000000";
pub const SET_1B: &str = "060E2B34021B01010F01000000000000";
pub const SET_23: &str = "060E2B34022301010F01000000000000";
pub const SET_53: &str = "060E2B34025301010F01000000000000";
pub const SET_63: &str = "060E2B34026301010F01000000000000";
pub const PACK_04: &str = "060E2B34020401010F01000000000000";
pub const PACK_24: &str = "060E2B34022401010F01000000000000";
pub const PACK_05: &str = "060E2B34020501010F01000000000000";

/// The item key of 01's job.
pub const ITEM: &str = "060E2B34010101010F02000000000000";

/// The inputs of a call.
pub fn call(tags: &str, packs: &str, target: &str, group: &str) -> Call {
    let [tags, packs, target, group] = [tags, packs, target, group].map(hex::bytes);
    Call { tags, packs, target, group }
}

pub fn key(digits: &str) -> Key {
    hex::bytes(digits).try_into().expect("sixteen bytes")
}

/// A table of one record.
pub fn record(number: u32, item: &str) -> String {
    format!("{number:08X}{item}")
}

/// This many bytes AB.
pub fn value(length: usize) -> String {
    "AB".repeat(length)
}
