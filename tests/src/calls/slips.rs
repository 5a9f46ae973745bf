//! The slips that 01 names, as bytes, held to the right answers.
use super::literals::{call, key, value, ITEM, PACK_04, PACK_05, SET_01, SET_03, SET_53};
use crate::compare_calls::Calls;
use crate::hex;

/// A key that differs from the item's in byte 8 only.
const OTHER: &str = "060E2B34010101020F02000000000000";

pub fn all(calls: &mut Calls, _seed: u64) {
    label_ended_inside_a_word(calls);
    outer_length_of_two_bytes(calls);
    variable_pack_held_to_the_column(calls);
    empty_items_dropped(calls);
    keys_matched_without_byte_8(calls);
    twelve_byte_tag_closed(calls);
}

/// A call that is accepted, and the call back, which gives the first input.
fn both_ways(calls: &mut Calls, name: &str, tables: [&str; 2], group: &str, output: &str) {
    let [group, output] = [group, output].map(hex::bytes);
    let there = call(tables[0], tables[1], &hex::text(&output[..16]), &hex::text(&group));
    calls.regroup_is(name, &there, Ok(&output));
    let back = there.with_group(output).with_target(&group[..16]);
    calls.regroup_is(name, &back, Ok(&group));
}

/// A 00 inside the word 81 00 ends no label: not a designator's, not an item key's, not a tag's.
fn label_ended_inside_a_word(calls: &mut Calls) {
    let global = "060E2B3402220501 01010101 0F 8100 00";
    for (item, tag) in [
        ("060E2B3401010101 0F 8100 05 818006 00", "05 81 80 06 00"),
        ("060E2B3401010101 0F 8100 05 8100 07 00", "05 81 00 07 00"),
        ("060E2B3401010101 0F 8100 8100 0700 00", "81 00 07 00"),
        ("060E2B3401010101 0F 8100 81808080 00", "81 80 80 80 00 00"),
    ] {
        let length = hex::bytes(tag).len() + 3;
        let universal = format!("{SET_01} 13 {item} 02 ABCD");
        both_ways(calls, "a word 81 00", ["-", "-"], &universal, &format!("{global} {length:02X} {tag} 02 ABCD"));
    }
}

/// The outer length of a 53 set is BER.
fn outer_length_of_two_bytes(calls: &mut Calls) {
    let tags = format!("00000102 {ITEM}");
    let universal = format!("{SET_01} 13 {ITEM} 02 ABCD");
    both_ways(calls, "a 53 set", [&tags, "-"], &universal, &format!("{SET_53} 06 0102 0002 ABCD"));
    let value = value(130);
    let universal = format!("{SET_01} 81 94 {ITEM} 81 82 {value}");
    both_ways(calls, "a longer 53 set", [&tags, "-"], &universal, &format!("{SET_53} 81 86 0102 0082 {value}"));
    for outer in ["0006", "00000006"] {
        let group = format!("{SET_53} {outer} 0102 0002 ABCD");
        calls.regroup_is("a 53 set with a fixed outer length", &call(&tags, "-", SET_01, &group), Err((7, 0)));
    }
}

/// The length column binds defined-length packs only.
fn variable_pack_held_to_the_column(calls: &mut Calls) {
    let universal = format!("{SET_01} 13 {ITEM} 02 ABCD");
    let variable = format!("{PACK_04} 03 02 ABCD");
    for length in [0, 1, 3, 255, 256, u32::MAX] {
        let packs = format!("{length:08X} {ITEM}");
        both_ways(calls, "a variable-length pack", ["-", &packs], &universal, &variable);
        let call = call("-", &packs, PACK_05, &universal);
        calls.regroup_is("a defined-length pack of another length", &call, Err((13, 0)));
    }
}

/// Empty values are items.
fn empty_items_dropped(calls: &mut Calls) {
    let tables = [&format!("00000007 {ITEM} 00000008 {OTHER}"), &format!("00000000 {ITEM} 00000001 {OTHER}")[..]];
    let universal = format!("{SET_01} 23 {ITEM} 00 {OTHER} 01 AB");
    both_ways(calls, "an empty item", [tables[0], "-"], &universal, &format!("{SET_03} 05 07 00 08 01 AB"));
    both_ways(calls, "an empty element", ["-", tables[1]], &universal, &format!("{PACK_04} 03 00 01 AB"));
    both_ways(calls, "an element of length 0", ["-", tables[1]], &universal, &format!("{PACK_05} 01 AB"));
    let listed = [(key(ITEM), 34, 0), (key(OTHER), 51, 1)];
    calls.listing_is("an empty item", &call("-", "-", "-", &universal), Ok(&listed));
    let last = format!("00000001 {OTHER} 00000000 {ITEM}");
    let universal = format!("{SET_01} 23 {OTHER} 01 AB {ITEM} 00");
    both_ways(calls, "an element of length 0 at the end", ["-", &last], &universal, &format!("{PACK_05} 01 AB"));
    let listed = [(key(OTHER), 17, 1), (key(ITEM), 18, 0)];
    calls.listing_is("an empty item at the end", &call("-", &last, "-", &format!("{PACK_05} 01 AB")), Ok(&listed));
    let empty = format!("00000000 {ITEM} 00000000 {ITEM}");
    let universal = format!("{SET_01} 22 {ITEM} 00 {ITEM} 00");
    both_ways(calls, "two elements of length 0", ["-", &empty], &universal, &format!("{PACK_05} 00"));
    let listed = [(key(ITEM), 17, 0), (key(ITEM), 17, 0)];
    calls.listing_is("two elements of length 0", &call("-", &empty, "-", &format!("{PACK_05} 00")), Ok(&listed));
}

/// Keys are equal only where all sixteen bytes are.
fn keys_matched_without_byte_8(calls: &mut Calls) {
    let both = format!("00000007 {OTHER} 00000008 {ITEM}");
    let universal = format!("{SET_01} 12 {ITEM} 01 AB");
    both_ways(calls, "two keys in the tag table", [&both, "-"], &universal, &format!("{SET_03} 03 08 01 AB"));
    let only = format!("00000001 {OTHER}");
    calls.regroup_is("the other key's tag", &call(&only, "-", SET_03, &universal), Err((12, 0)));
    calls.regroup_is("the other key's record", &call("-", &only, PACK_04, &universal), Err((12, 0)));
    calls.regroup_is("the other key's record", &call("-", &only, PACK_05, &universal), Err((12, 0)));
    let target = PACK_04.replace("01010F", "01020F");
    calls.regroup_is("a family of another byte 8", &call("-", "-", &target, &universal), Err((6, 0)));
}

/// A tag of 12 bytes stands without 00, and one of 11 bytes with it.
fn twelve_byte_tag_closed(calls: &mut Calls) {
    let global = "060E2B3402020301 2B34 000000000000";
    for (item, tag) in [
        ("060E2B34 01010101 0F02030405060708", "01010101 0F02030405060708"),
        ("060E2B34 01010101 0F02030405068100", "01010101 0F02030405068100"),
        ("060E2B34 01010101 0F02030405060700", "01010101 0F02030405060700"),
        ("060E2B34 01010101 0F02030405810000", "01010101 0F02030405810000"),
        ("060E2B34 01010101 0F02030405060000", "01010101 0F020304050600"),
        ("060E2B34 01010101 0000000000000000", "01010101 00"),
    ] {
        let length = hex::bytes(tag).len() + 3;
        let universal = format!("{SET_01} 13 {item} 02 ABCD");
        both_ways(calls, "a long tag", ["-", "-"], &universal, &format!("{global} {length:02X} {tag} 02 ABCD"));
    }
    let ended = format!("{global} 10 01010101 0F02030405060708 00 02 ABCD");
    calls.regroup_is("00 after twelve bytes is a length", &call("-", "-", SET_01, &ended), Err((8, 1)));
    let cut = format!("{global} 0B 01010101 0F020304050607");
    calls.regroup_is("eleven bytes without 00", &call("-", "-", SET_01, &cut), Err((8, 0)));
}
