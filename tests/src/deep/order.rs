//! The order of the refusals: calls that break several rules, held to the first of them.
use super::build::{outermost, tags, PLAIN};
use crate::call::Call;
use crate::calls::order::broken;
use crate::compare_deep::Deep;
use crate::generate::nested;
use crate::generate::wire::enclose;
use crate::hex;
use crate::literal::{coded, Refused};

/// The rules among 1 to 7 that a deep call can break, by their bits.
const EARLY: [usize; 4] = [1, 4, 5, 7];

/// In a 03 set: tag 11 is a 03 set, 12 a 0B set, 07 no group, and 7E is not listed. Sets from depth 2, 3 and 4 down to one
/// too many; 18 of a set inside.
const FROM_2: &str = "11 06 11 04 11 02 11 00";
const FROM_3: &str = "11 04 11 02 11 00";
const FROM_4: &str = "11 02 11 00";
const UNREAD: &str = "11 01 7E";

/// A name, what stands in the outermost set, and the refusal.
type Case = (&'static str, String, Refused);

pub fn all(deep: &mut Deep, _seed: u64) {
    for (name, contents, refused) in [items(), inside(), at_depth_4(), counts()].concat() {
        let call = nested::call(tags(), enclose(&outermost(0x03), &hex::bytes(&contents)));
        deep.refused(name, &call, refused);
        for bits in 1..1 << EARLY.len() {
            early(deep, name, &call, bits);
        }
    }
}

/// Breaks those of the early rules whose bits are set as well: the first of them is refused.
fn early(deep: &mut Deep, name: &str, late: &Call, bits: usize) {
    let broken_rules = (0..EARLY.len()).filter(|bit| bits >> bit & 1 == 1).map(|bit| EARLY[bit]);
    let first = broken_rules.clone().next().expect("a bit is set");
    let call = broken(late, broken_rules.map(|number| 1 << (number - 1)).sum());
    deep.refused(&format!("{first} before {name}"), &call, (first as u64, 0));
}

/// A nested set of these contents.
fn set(contents: &str) -> String {
    format!("11 {:02X} {contents}", hex::bytes(contents).len())
}

/// 17 and 18 from inside one item, and what other items give.
fn items() -> Vec<Case> {
    let word = |contents: &str| format!("12 {:02X} {contents}", hex::bytes(contents).len());
    vec![
        ("17", format!("07 00 {FROM_2}"), (17, 1)),
        ("18", format!("07 00 {UNREAD}"), (18, 1)),
        ("17, then 18", format!("{FROM_2} {UNREAD}"), (17, 0)),
        ("18, then 17", format!("{UNREAD} {FROM_2}"), (18, 0)),
        ("17, then 17", format!("07 00 {FROM_2} {FROM_2}"), (17, 1)),
        ("17, then 20", format!("{FROM_2} 7E 00"), (17, 0)),
        ("20, then 17", format!("7E 00 {FROM_2}"), (20, 0)),
        ("18, then 20", format!("{UNREAD} 7E 00"), (18, 0)),
        ("20, then 18", format!("7E 00 {UNREAD}"), (20, 0)),
        ("17, then 9", format!("{FROM_2} 07 80"), (17, 0)),
        ("9, then 17", format!("07 80 {FROM_2}"), (9, 0)),
        ("18, then 9", format!("{UNREAD} 07 05"), (18, 0)),
        ("9, then 18", format!("07 80 {UNREAD}"), (9, 0)),
        ("9 and 18 of one item", "11 02 7E".to_string(), (9, 0)),
        ("9 and 17 of one item", "11 09 11 06 11 04 11 02 11 00".to_string(), (9, 0)),
        ("9 of a malformed length", "11 80 7E".to_string(), (9, 0)),
        ("18 of 8", word("81"), (18, 0)),
        ("18 of 19", word("80 00"), (18, 0)),
        ("18 of 20", word("81 00 00"), (18, 0)),
        ("18 of 9", word("07 80"), (18, 0)),
    ]
}

/// 17 and 18 inside one item, at depths 2 and 3, and behind each other.
fn inside() -> Vec<Case> {
    vec![
        ("17, then 18, at depth 2", set(&format!("{FROM_3} 7E 00")), (17, 0)),
        ("18, then 17, at depth 2", set(&format!("7E 00 {FROM_3}")), (18, 0)),
        ("17, then 18 in another set", set(&format!("{FROM_3} {UNREAD}")), (17, 0)),
        ("18, then 17 in another set", set(&format!("{UNREAD} {FROM_3}")), (18, 0)),
        ("17, then 9, at depth 2", set(&format!("{FROM_3} 07 80")), (17, 0)),
        ("9, then 17, at depth 2", set(&format!("07 80 {FROM_3}")), (18, 0)),
        ("17, then 18, at depth 3", set(&set(&format!("{FROM_4} 7E"))), (17, 0)),
        ("18, then 17, at depth 3", set(&set(&format!("7E 00 {FROM_4}"))), (18, 0)),
        ("17 at depth 3, then 18 at depth 2", set(&format!("{} 7E", set(FROM_4))), (17, 0)),
        ("18 in the second item of the third", format!("07 00 07 00 {}", set(&format!("07 00 {UNREAD}"))), (18, 2)),
        ("17 in the second item of the third", format!("07 00 07 00 {}", set(&format!("07 00 {FROM_3}"))), (17, 2)),
    ]
}

/// Items of a set at depth 4.
fn at_depth_4() -> Vec<Case> {
    let from = |contents: &str| set(&set(&set(contents)));
    vec![
        ("17 of a value that does not read", from("11 01 7E"), (17, 0)),
        ("17, then 20, at depth 4", from("11 00 7E 00"), (17, 0)),
        ("20, then 17, at depth 4", from("7E 00 11 00"), (18, 0)),
        ("17, then 9, at depth 4", from("11 00 07 80"), (17, 0)),
        ("9, then 17, at depth 4", from("07 80 11 00"), (18, 0)),
        ("9 of a set at depth 4", from("11 01"), (18, 0)),
        ("9 of a set at depth 4, malformed", from("11 80"), (18, 0)),
        ("9 of a set at depth 4, missing", from("11"), (18, 0)),
        ("9 of a set after another item", from("07 00 11 05"), (18, 0)),
    ]
}

/// 10 and what comes before it.
fn counts() -> Vec<Case> {
    let items = |count: usize| format!("{:02X} 00", PLAIN.0).repeat(count);
    vec![
        ("10", items(257), (10, 256)),
        ("10 and 18", items(256) + UNREAD, (10, 256)),
        ("10 and 17", items(256) + FROM_2, (10, 256)),
        ("10 and 9", items(256) + "07 80", (10, 256)),
        ("18, then 10", items(255) + UNREAD + &items(1), (18, 255)),
        ("17, then 10", items(255) + FROM_2 + &items(1), (17, 255)),
        ("17, then 10 inside", format!("{FROM_2} 11 820202 {}", items(257)), (17, 0)),
        ("10 inside, then 17", format!("11 820202 {} {FROM_2}", items(257)), (18, 0)),
    ]
}

/// 14 comes after 17 and 18, and 15 last. The listing never gives 14.
pub fn late(deep: &mut Deep, _seed: u64) {
    let long = format!("07 82 FF00 {}", "AB".repeat(0xFF00));
    let empty = "07 00".repeat(100);
    for (name, contents, refused) in [
        ("14", "", (14, 0)),
        ("17, then 14", FROM_2, (17, 101)),
        ("18, then 14", UNREAD, (18, 101)),
        ("20, then 14", "7E", (20, 101)),
    ] {
        let contents = hex::bytes(&format!("{long} {empty} {contents}"));
        let call = nested::call(tags(), enclose(&outermost(0x03), &contents));
        deep.write_refused(name, &call, refused);
        let _ = deep.write(&call, 0);
        let _ = deep.write(&call, 70_000);
        let got = deep.listing(&call, 16 * 101, 3 * 101).answer;
        let expected = if refused.0 == 14 { 101 } else { coded(refused) };
        deep.tally.equal(got, expected, || format!("{name}, listing"));
        let got = deep.listing(&call, 0, 0).answer;
        let expected = if refused.0 == 14 { 1_015_000 } else { expected };
        deep.tally.equal(got, expected, || format!("{name}, listing without room"));
    }
}
