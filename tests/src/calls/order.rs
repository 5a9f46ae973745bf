//! The order of the refusals: calls that break several rules, held to the first of them.
use super::literals::{call, value, PACK_04, PACK_05, PACK_24, SET_01, SET_03, SET_0B, SET_1B, SET_23, SET_63};
use crate::call::Call;
use crate::compare_calls::Calls;
use crate::generate::wire::shortest_ber;
use crate::groups::MOST_BYTES;
use crate::hex;
use crate::literal::Refused;

/// The keys A and B, and a global set, whose root A begins with.
const A: &str = "060E2B34010101010F02000000000000";
const B: &str = "060E2B34010101010F03000000000000";
const SET_62: &str = "060E2B34026205010101010100000000";

/// Tag tables that list A with 07; with 08 a key that does not begin with that root; B with a tag of two bytes.
const TAG_A: &str = "00000007060E2B34010101010F02000000000000";
const TAGS: &str = "00000007060E2B34010101010F0200000000000000000008060E2B34010101020F02000000000000";
const WIDE: &str = "00000007060E2B34010101010F0200000000000000000100060E2B34010101010F03000000000000";

/// Pack tables of one byte each.
const PACK_A: &str = "00000001060E2B34010101010F02000000000000";
const PACK_AB: &str = "00000001060E2B34010101010F0200000000000000000001060E2B34010101010F03000000000000";

pub fn all(calls: &mut Calls, _seed: u64) {
    let late = late();
    for (name, call, answer) in &late {
        calls.regroup_is(name, call, Err(*answer));
        for broken in 0..1 << 7 {
            early(calls, name, call, broken);
        }
    }
    short_slices(calls);
}

/// A group of this key and these contents.
fn group(key: &str, contents: &str) -> String {
    let contents = hex::bytes(contents);
    format!("{key} {} {}", hex::text(&shortest_ber(contents.len() as u64)), hex::text(&contents))
}

/// A call that is refused: its name, its tables, target and group, and the refusal.
pub type Case = (&'static str, Call, Refused);

pub fn case(
    name: &'static str,
    tables: [&str; 2],
    target: &str,
    source: &str,
    contents: &str,
    refused: Refused,
) -> Case {
    (name, call(tables[0], tables[1], target, &group(source, contents)), refused)
}

/// Calls that break one or more of the rules 8 to 14, 19 and 20, and the refusal that comes first.
pub fn late() -> Vec<Case> {
    [reading(), labels(), reading_packs(), writing(), writing_packs(), long_outputs()].concat()
}

fn reading() -> Vec<Case> {
    let tables = [TAG_A, "-"];
    let items = |count: usize| "07 00".repeat(count);
    let set = |name, contents: &str, refused| case(name, tables, SET_01, SET_03, contents, refused);
    vec![
        set("20", "07 00 08 00", (20, 1)),
        set("20 and 9 of one item", "08 05", (20, 0)),
        set("20, then 9", "07 00 08 00 07 05", (20, 1)),
        set("9, then 20", "07 80 08 00", (9, 0)),
        set("9", "07 00 07 05 01020304", (9, 1)),
        set("9 after the last label", "07 00 07", (9, 1)),
        set("10 and 20", &(items(256) + "08"), (10, 256)),
        set("10 and 9", &(items(256) + "07"), (10, 256)),
        set("20, then 10", &(items(255) + "08 00" + &items(1)), (20, 255)),
        set("9, then 10", &(items(255) + "07 80" + &items(1)), (9, 255)),
        case("10, then 12", tables, PACK_04, SET_03, &items(257), (10, 256)),
        case("20, then 12", tables, PACK_04, SET_03, "07 00 08 00", (20, 1)),
        case("9, then 12", tables, PACK_04, SET_03, "07 00 07 80", (9, 1)),
    ]
}

/// Labels of a set with BER word tags, and a key that is cut off and no key. One that is cut off is always the last.
fn labels() -> Vec<Case> {
    let tables = [TAG_A, "-"];
    let items = |count: usize| "07 00".repeat(count);
    let set = |name, contents: &str, refused| case(name, tables, SET_01, SET_0B, contents, refused);
    vec![
        set("8", "07 00 81", (8, 1)),
        set("19", "07 00 80 00", (19, 1)),
        set("19 and 9 of one item", "80 80", (19, 0)),
        set("19, then 20", "80 00 08 00", (19, 0)),
        set("20, then 19", "08 00 80 00", (20, 0)),
        set("19, then 8", "80 00 81", (19, 0)),
        set("20, then 8", "08 00 81", (20, 0)),
        set("9, then 8", "07 80 81", (9, 0)),
        set("9, then 19", "07 80 80 00", (9, 0)),
        set("10 and 8", &(items(256) + "81"), (10, 256)),
        set("10 and 19", &(items(256) + "80"), (10, 256)),
        set("19, then 10", &(items(255) + "80 00" + &items(1)), (19, 255)),
        case("8 and 19 of one key", tables, SET_01, SET_01, &format!("{A} 00 07"), (8, 1)),
        case("8, then 12", tables, PACK_04, SET_0B, "07 00 81", (8, 1)),
        case("19, then 12", tables, PACK_04, SET_0B, "07 00 80 00", (19, 1)),
    ]
}

fn reading_packs() -> Vec<Case> {
    let tables = ["-", PACK_AB];
    vec![
        case("11", tables, SET_01, PACK_05, "01 02 03", (11, 2)),
        case("11, then 12", tables, SET_03, PACK_05, "01 02 03", (11, 2)),
        case("11 of an empty table", ["-", "-"], SET_01, PACK_05, "01", (11, 0)),
        case("9 of a defined length", tables, SET_01, PACK_05, "01", (9, 1)),
        case("9 of an element, then 12", tables, SET_03, PACK_04, "01 01 80", (9, 1)),
        case("9 of an empty pack", tables, SET_01, PACK_04, "-", (9, 0)),
    ]
}

fn writing() -> Vec<Case> {
    let tables = [WIDE, "-"];
    let long = format!("82 0100 {}", value(256));
    vec![
        case("12", ["-", "-"], SET_03, SET_01, &format!("{A} 00"), (12, 0)),
        case("12 of a wide tag", tables, SET_03, SET_1B, "00000007 00 00000100 00", (12, 1)),
        case("12 and 13 of one item", tables, SET_23, SET_1B, &format!("00000100 {long}"), (12, 0)),
        case("13, then 12", tables, SET_23, SET_1B, &format!("00000007 {long} 00000100 00"), (13, 0)),
        case("12, then 13", tables, SET_23, SET_1B, &format!("00000100 00 00000007 {long}"), (12, 0)),
        case("13", tables, SET_23, SET_03, &format!("07 00 07 {long}"), (13, 1)),
    ]
}

fn writing_packs() -> Vec<Case> {
    let tables = ["-", PACK_AB];
    let one = ["-", PACK_A];
    let long = format!("82 0100 {}", value(256));
    vec![
        case("records over", tables, PACK_05, SET_01, &format!("{A} 01 AB"), (12, 1)),
        case("all records over", tables, PACK_04, SET_01, "-", (12, 0)),
        case("13, then records over", tables, PACK_05, SET_01, &format!("{A} 02 ABCD"), (13, 0)),
        case("13 of a long value, then records over", tables, PACK_24, SET_01, &format!("{A} {long}"), (13, 0)),
        case("12, then records over", tables, PACK_05, SET_01, &format!("{B} 01 AB"), (12, 0)),
        case("12 and 13 of an element", tables, PACK_05, SET_01, &format!("{B} 02 ABCD"), (12, 0)),
        case("an item past the records", one, PACK_05, SET_01, &format!("{A} 01 AB {A} 01 AB"), (12, 1)),
        case("13, then an item past the records", one, PACK_05, SET_01, &format!("{A} 00 {A} 01 AB"), (13, 0)),
        case("an item and no record", ["-", "-"], PACK_04, SET_01, &format!("{A} 01 AB"), (12, 0)),
    ]
}

/// Inputs of 65,536 bytes whose outputs are longer, or would be.
fn long_outputs() -> Vec<Case> {
    let tables = [TAGS, "-"];
    let one = format!("07 82 FFE9 {}", value(0xFFE9));
    let two = format!("07 82 FFE7 {} 08 00", value(0xFFE7));
    vec![
        case("14", tables, SET_63, SET_03, &one, (14, 0)),
        case("14 of two items", tables, SET_63, SET_03, &two, (14, 0)),
        case("12, then 14", tables, SET_62, SET_03, &two, (12, 1)),
        case("13, then 14", tables, SET_23, SET_03, &one, (13, 0)),
    ]
}

/// Breaks those of the rules 1 to 7 whose bits are set as well: the first of them is refused.
fn early(calls: &mut Calls, name: &str, late: &Call, bits: usize) {
    let Some(first) = (0..7).find(|bit| bits >> bit & 1 == 1) else {
        return;
    };
    if bits >> 3 & 1 == 1 && bits.count_ones() > 2 {
        return;
    }
    let call = broken(late, bits);
    calls.regroup_is(&format!("{} before {name}", first + 1), &call, Err((first as u64 + 1, 0)));
}

/// The call with those of the rules 1 to 7 broken whose bits are set.
pub fn broken(late: &Call, bits: usize) -> Call {
    let breaks = |number: usize| bits >> (number - 1) & 1 == 1;
    let mut call = late.clone();
    if breaks(7) {
        call.group[16] ^= 0x01;
    }
    if breaks(6) {
        call.target = hex::bytes(&SET_01.replace("01010F", "01020F"));
    }
    if breaks(5) {
        call.group[0] = 0x07;
    }
    if breaks(4) {
        call.group.resize(MOST_BYTES + 1, 0x00);
    }
    if breaks(3) {
        call.target.pop();
    }
    if breaks(2) {
        call.packs.push(0x00);
    }
    if breaks(1) {
        call.tags.push(0x00);
    }
    call
}

/// 15 comes last: after 12, 13 and 14, in a slice of no byte.
fn short_slices(calls: &mut Calls) {
    for (name, call, (number, place)) in late() {
        let refusal = calls.regroup(&call, 0).map_err(|refusal| (refusal.number(), refusal.place as u64));
        calls.tally.equal(refusal, Err((number, place)), || format!("{name} before 15"));
    }
    let call = call(TAGS, "-", SET_01, &group(SET_03, "07 01 AB"));
    for room in 0..34 {
        let refusal = calls.regroup(&call, room).map_err(|refusal| (refusal.number(), refusal.place));
        calls.tally.equal(refusal, Err((15, 0)), || format!("15 with {room} bytes"));
    }
}
