//! The edges that 01 names, as bytes, held to the answers that 01 gives.
use super::literals::{
    call, key, record, value, ITEM, PACK_05, SET_01, SET_03, SET_0B, SET_1B, SET_23, SET_53, SET_63,
};
use crate::call::Call;
use crate::compare_calls::Calls;
use crate::hex;

/// The job of 01, from its tables to its output.
pub fn job(calls: &mut Calls, _seed: u64) {
    let tags = record(0x102, ITEM);
    let group = format!("{SET_01} 13 {ITEM} 02 ABCD");
    let call = call(&tags, "-", SET_53, &group);
    let output = hex::bytes("060E2B34025301010F010000000000000601020002ABCD");
    calls.regroup_is("the job", &call, Ok(&output));
    calls.listing_is("the job's input", &call, Ok(&[(key(ITEM), 34, 2)]));
    calls.listing_is("the job's output", &call.with_group(output.clone()), Ok(&[(key(ITEM), 21, 2)]));
    let back = call.with_group(output).with_target(&hex::bytes(SET_01));
    calls.regroup_is("the job's output, back", &back, Ok(&call.group));
}

/// A group with one item of these lengths: item length, outer length of the 03 set, outer length of the 05 pack.
fn item_of(calls: &mut Calls, length: u32, item_length: &str, set_length: &str, pack_length: &str) {
    let value = value(length as usize);
    let set = format!("{SET_03} {set_length} 07 {item_length} {value}");
    let pack = format!("{PACK_05} {pack_length} {value}");
    let call = call(&record(7, ITEM), &record(length, ITEM), SET_03, &pack);
    let name = format!("a length of {length}");
    calls.regroup_is(&name, &call, Ok(&hex::bytes(&set)));
    let back = call.with_group(hex::bytes(&set)).with_target(&hex::bytes(PACK_05));
    calls.regroup_is(&name, &back, Ok(&hex::bytes(&pack)));
}

/// Lengths 127, 128, 255, 256 write 7F, 81 80, 81 FF, 82 01 00. 83 00 00 05 reads 5. 80 and 89 are malformed.
pub fn lengths(calls: &mut Calls, _seed: u64) {
    item_of(calls, 0, "00", "02", "00");
    item_of(calls, 127, "7F", "81 81", "7F");
    item_of(calls, 128, "81 80", "81 83", "81 80");
    item_of(calls, 255, "81 FF", "82 01 02", "81 FF");
    item_of(calls, 256, "82 01 00", "82 01 04", "82 01 00");
    item_of(calls, 65_500, "82 FF DC", "82 FF E0", "82 FF DC");
    read_as_5(calls);
    for bytes in ["80", "89", "89 00 00 00 00 00 00 00 00 05", "FF"] {
        let outer = format!("{SET_03} {bytes} 07 05 0102030405");
        calls.regroup_is("outer length malformed", &one_item(SET_01, &outer), Err((7, 0)));
        let contents = hex::bytes(&format!("07 {bytes} 0102030405"));
        let item = format!("{SET_03} {:02X} {}", contents.len(), hex::text(&contents));
        calls.regroup_is("item length malformed", &one_item(SET_01, &item), Err((9, 0)));
    }
    for bytes in ["-", "81", "83 00 00", "88 00 00 00 00 00 00 00"] {
        let outer = format!("{SET_03} {bytes}");
        calls.regroup_is("outer length missing", &one_item(SET_01, &outer), Err((7, 0)));
        let contents = hex::bytes(&format!("07 {bytes}"));
        let item = format!("{SET_03} {:02X} {}", contents.len(), hex::text(&contents));
        calls.regroup_is("item length missing", &one_item(SET_01, &item), Err((9, 0)));
    }
}

/// A call whose tables list the item under tag 7.
fn one_item(target: &str, group: &str) -> Call {
    call(&record(7, ITEM), "-", target, group)
}

fn read_as_5(calls: &mut Calls) {
    let written = hex::bytes(&format!("{SET_03} 07 07 05 0102030405"));
    let forms = ["05", "81 05", "83 00 00 05", "84 00 00 00 05", "88 00 00 00 00 00 00 00 05"];
    for item in forms {
        let contents = hex::bytes(&format!("07 {item} 0102030405"));
        let length = contents.len();
        for outer in [format!("{length:02X}"), format!("83 0000{length:02X}"), format!("88 00000000000000{length:02X}")]
        {
            let group = format!("{SET_03} {outer} {}", hex::text(&contents));
            calls.regroup_is("longer forms are read", &one_item(SET_03, &group), Ok(&written));
        }
    }
}

/// BER word tags 127, 128, 16,383, 16,384 are 7F, 81 00, FF 7F, 81 80 00. 268,435,455 is FF FF FF 7F; one more gives
/// 12.
pub fn word_tags(calls: &mut Calls, _seed: u64) {
    let tags = [
        (0, "00"),
        (127, "7F"),
        (128, "81 00"),
        (16_383, "FF 7F"),
        (16_384, "81 80 00"),
        (2_097_151, "FF FF 7F"),
        (2_097_152, "81 80 80 00"),
        (268_435_455, "FF FF FF 7F"),
    ];
    for (tag, word) in tags {
        let length = 2 + hex::bytes(word).len();
        let wide = format!("{SET_1B} 06 {tag:08X} 01 AB");
        let set = hex::bytes(&format!("{SET_0B} {length:02X} {word} 01 AB"));
        let call = call(&record(tag, ITEM), "-", SET_0B, &wide);
        calls.regroup_is("a BER word tag", &call, Ok(&set));
        let back = call.with_group(set).with_target(&hex::bytes(SET_1B));
        calls.regroup_is("a BER word tag, back", &back, Ok(&hex::bytes(&wide)));
    }
    let wide = format!("{SET_1B} 06 10000000 01 AB");
    let too_wide = call(&record(268_435_456, ITEM), "-", SET_0B, &wide);
    calls.regroup_is("a tag of 268,435,456", &too_wide, Err((12, 0)));
    let five = call(&record(268_435_456, ITEM), "-", SET_1B, &format!("{SET_0B} 07 8180808000 01 AB"));
    calls.regroup_is("a BER word tag of five bytes", &five, Err((19, 0)));
    for (word, number, name) in [
        ("80", 19, "begins with 80"),
        ("80 07", 19, "begins with 80, then 07"),
        ("81 80 80 80 00", 19, "has four bytes of 80 or more"),
        ("FF FF FF FF", 19, "is four bytes of 80 or more"),
        ("81", 8, "is cut off"),
        ("FF FF FF", 8, "is cut off after three bytes"),
        ("08", 20, "is not listed"),
    ] {
        let group = format!("{SET_0B} {:02X} {word}", hex::bytes(word).len());
        calls.regroup_is(&format!("a BER word tag that {name}"), &one_item(SET_01, &group), Err((number, 0)));
    }
}

/// The global set of 01, whose root is 06 0E 2B 34 01 01 01 02 03.
const GLOBAL: &str = "060E2B34020205010101010203000000";

/// A universal set with one item of this key and the value AB.
fn universal_of(item: &str) -> String {
    format!("{SET_01} 12 {item} 01 AB")
}

/// Items of the global set of 01: tags 05 00, 81 00 04 00, 05 to 0B and 00; the root alone gives 12.
pub fn globals(calls: &mut Calls, _seed: u64) {
    for (item, tag) in [
        ("060E2B34010101020305000000000000", "05 00"),
        ("060E2B34010101020381000400000000", "81 00 04 00"),
        ("060E2B34010101020381000000000000", "81 00 00"),
        ("060E2B340101010203050607 08090A0B", "05 06 07 08 09 0A 0B 00"),
    ] {
        let length = 2 + hex::bytes(tag).len();
        let set = hex::bytes(&format!("{GLOBAL} {length:02X} {tag} 01 AB"));
        let call = call("-", "-", GLOBAL, &universal_of(item));
        calls.regroup_is("an item of a global set", &call, Ok(&set));
        let listed = [(key(item), 16 + length as u32, 1)];
        calls.listing_is("an item of a global set", &call.with_group(set.clone()), Ok(&listed));
        let back = call.with_group(set).with_target(&hex::bytes(SET_01));
        calls.regroup_is("an item of a global set, back", &back, Ok(&hex::bytes(&universal_of(item))));
    }
    for (item, name) in [
        ("060E2B34010101020300000000000000", "the root alone"),
        ("060E2B34010101020405000000000000", "a key outside the root"),
        ("060E2B34010101030305000000000000", "a key that differs from the root in byte 8"),
    ] {
        calls.regroup_is(name, &call("-", "-", GLOBAL, &universal_of(item)), Err((12, 0)));
    }
    for (tag, number, name) in [
        ("00 01 AB", 19, "an empty tag"),
        ("05", 8, "a tag that is cut off"),
        ("81 00", 8, "a tag that is cut off after 81 00"),
        ("80 05 00 01 AB", 19, "a word that begins with 80"),
        ("05 06 07 08 09 0A 0B 0C 00 01 AB", 19, "a join of 17 bytes"),
        ("05 06 07 08 09 0A 81 00 01 AB", 8, "a tag that is cut off, and too long already"),
        ("05 06 07 08 09 0A 0B 0C 0D 0E 0F 10 01 AB", 19, "a tag of 12 bytes"),
        ("05 06 07 08 09 0A 81 01 AB", 8, "a tag that is cut off after four bytes more"),
    ] {
        let group = format!("{GLOBAL} {:02X} {tag}", hex::bytes(tag).len());
        calls.regroup_is(name, &call("-", "-", SET_01, &group), Err((number, 0)));
    }
}

/// Empty input gives 5. A set of length 0 has no items. 256 items pass. A value of 256 bytes under a 1-byte length
/// gives 13.
pub fn counts_and_values(calls: &mut Calls, _seed: u64) {
    calls.regroup_is("empty input", &call("-", "-", SET_01, "-"), Err((5, 0)));
    calls.listing_is("empty input", &call("-", "-", SET_01, "-"), Err((5, 0)));
    calls.regroup_is("fifteen bytes", &call("-", "-", SET_01, &SET_01[..30]), Err((5, 0)));
    let none = call("-", "-", SET_53, &format!("{SET_01} 00"));
    calls.regroup_is("no items", &none, Ok(&hex::bytes(&format!("{SET_53} 00"))));
    calls.listing_is("no items", &none, Ok(&[]));
    let items = |count: usize| "07 01 AB ".repeat(count);
    let most = one_item(SET_23, &format!("{SET_03} 82 0300 {}", items(256)));
    calls.regroup_is("256 items", &most, Ok(&hex::bytes(&format!("{SET_23} 82 0300 {}", items(256)))));
    let many = one_item(SET_23, &format!("{SET_03} 82 0303 {}", items(257)));
    calls.regroup_is("257 items", &many, Err((10, 256)));
    calls.listing_is("257 items", &many, Err((10, 256)));
    let bad = one_item(SET_23, &format!("{SET_03} 82 0301 {} 09", items(256)));
    calls.regroup_is("a byte after 256 items", &bad, Err((10, 256)));
    let long = one_item(SET_23, &format!("{SET_03} 82 0104 07 82 0100 {}", value(256)));
    calls.regroup_is("a value of 256 bytes under a 1-byte length", &long, Err((13, 0)));
    let fits = one_item(SET_23, &format!("{SET_03} 82 0102 07 81 FF {}", value(255)));
    let output = format!("{SET_23} 82 0101 07 FF {}", value(255));
    calls.regroup_is("a value of 255 bytes under a 1-byte length", &fits, Ok(&hex::bytes(&output)));
}

/// At most 65,536 bytes in and out.
pub fn sizes(calls: &mut Calls, _seed: u64) {
    let one = |length: usize| format!("{SET_03} 82 {:04X} 07 82 {length:04X} {}", length + 4, value(length));
    let same = hex::bytes(&one(65_513));
    calls.regroup_is("65,536 bytes in and out", &one_item(SET_03, &one(65_513)), Ok(&same));
    let over = one_item(SET_03, &one(65_514));
    calls.regroup_is("65,537 bytes in", &over, Err((4, 0)));
    calls.listing_is("65,537 bytes in", &over, Err((4, 0)));
    let listed = [(key(ITEM), 23, 65_513)];
    calls.listing_is("65,536 bytes in", &one_item(SET_03, &one(65_513)), Ok(&listed));
    let two = hex::bytes(&format!("{SET_53} 82 FFED 0007 FFE9 {}", value(65_513)));
    calls.regroup_is("65,536 bytes out", &one_item(SET_53, &one(65_513)), Ok(&two));
    let long = one_item(SET_63, &one(65_513));
    calls.regroup_is("65,537 bytes out", &long, Err((14, 0)));
    for room in [0, 65_536, 65_537] {
        let refusal = calls.regroup(&long, room).map_err(|refusal| refusal.number());
        calls.tally.equal(refusal, Err(14), || format!("65,537 bytes out, a slice of {room}"));
    }
}
