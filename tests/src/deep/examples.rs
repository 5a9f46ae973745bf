//! Worked examples: the bytes of deep calls, their outputs and listings, written out.
use crate::compare_deep::Deep;
use crate::generate::nested;
use crate::groups::Key;
use crate::hex;

/// An outermost set of each kind that is used here, and the item keys A and B.
const SET_01: &str = "060E2B34020101010F01000000000000";
const SET_03: &str = "060E2B34020301010F01000000000000";
const SET_53: &str = "060E2B34025301010F01000000000000";
const A: &str = "060E2B34010101010F02000000000000";
const B: &str = "060E2B34010101010F04000000000000";

/// The key of a set inside: with byte 6 as sent, and as written.
const NESTED_03: &str = "060E2B34020301010F03000000000000";
const NESTED_01: &str = "060E2B34020101010F03000000000000";

fn key(digits: &str) -> Key {
    hex::bytes(digits).try_into().expect("sixteen bytes")
}

/// A local set of two levels, which the second application leaves as it is.
pub fn two_levels(deep: &mut Deep, _seed: u64) {
    let tags = hex::bytes(&format!("00000007 {B} 00000102 {A} 00000103 {NESTED_03}"));
    let group = hex::bytes(&format!("{SET_53} 0F 0102 0002 ABCD 0103 0005 07 01 EF 07 00"));
    let output = hex::bytes(&format!("{SET_01} 47 {A} 02 ABCD {NESTED_01} 23 {B} 01 EF {B} 00"));
    let call = nested::call(tags, group);
    deep.writes("two levels", &call, &output);
    let items = [(key(A), [21, 2, 1]), (key(NESTED_03), [27, 5, 1]), (key(B), [29, 1, 2]), (key(B), [32, 0, 2])];
    deep.lists("two levels", &call, &items);
    let again = call.with_group(output.clone());
    deep.writes("two levels, again", &again, &output);
    let items = [(key(A), [34, 2, 1]), (key(NESTED_01), [53, 35, 1]), (key(B), [70, 1, 2]), (key(B), [88, 0, 2])];
    deep.lists("two levels, again", &again, &items);
}

/// Sets to depth 4, the deepest of them empty, and to depth 5.
pub fn too_deep(deep: &mut Deep, _seed: u64) {
    let tags = hex::bytes(&format!("00000001 {NESTED_03}"));
    let call = nested::call(tags, hex::bytes(&format!("{SET_03} 06 01 04 01 02 01 00")));
    let output = format!("{SET_01} 33 {NESTED_01} 22 {NESTED_01} 11 {NESTED_01} 00");
    deep.writes("depth 4", &call, &hex::bytes(&output));
    let set = key(NESTED_03);
    deep.lists("depth 4", &call, &[(set, [19, 4, 1]), (set, [21, 2, 2]), (set, [23, 0, 3])]);
    for group in ["08 01 06 01 04 01 02 01 00", "09 01 07 01 05 01 03 01 01 FF"] {
        let call = call.with_group(hex::bytes(&format!("{SET_03} {group}")));
        deep.refused("depth 5", &call, (17, 0));
    }
    let second = call.with_group(hex::bytes(&format!("{SET_03} 0A 01 00 01 06 01 04 01 02 01 00")));
    deep.refused("depth 5 in the second item", &second, (17, 1));
}

/// Values of nested sets that do not read.
pub fn unread(deep: &mut Deep, _seed: u64) {
    let tags = hex::bytes(&format!("00000001 {NESTED_03} 00000007 {A}"));
    for (contents, name) in [
        ("05 07 00 01 01 08", "a tag that is not listed"),
        ("06 07 00 01 02 08 00", "a tag that is not listed, before a length"),
        ("05 07 00 01 01 07", "a length that is missing"),
        ("06 07 00 01 02 07 80", "a length that is malformed"),
        ("06 07 00 01 02 07 01", "a value that is longer than what is left of its holder"),
        ("08 07 00 01 04 01 02 07 01", "the same one level deeper"),
        ("0A 07 00 01 02 07 02 07 00 07 00", "the same with more bytes behind its holder"),
    ] {
        let call = nested::call(tags.clone(), hex::bytes(&format!("{SET_03} {contents}")));
        deep.refused(name, &call, (18, 1));
    }
}
