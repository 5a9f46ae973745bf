//! Source and target keys: those that are refused, with 5 and with 3.
use super::build::{call, other, triplet};
use crate::calls::literals::{key, SET_01, SET_03};
use crate::compare_feed::Feeds;
use crate::feed_call::FeedCall;
use crate::groups::kind::{Group, SORTS};
use crate::groups::Key;
use crate::hex;

/// A last word without its end, and a word that begins with 80.
const WORDS: [&str; 2] = ["060E2B34020301010F01010101010181", "060E2B34020301010F01018001010101"];

/// Bytes that are no group's key: too few, too many, no key, no group.
fn no_groups() -> Vec<Vec<u8>> {
    let whole = hex::bytes(SET_03);
    let mut all: Vec<Vec<u8>> = (0..16).map(|length| whole[..length].to_vec()).collect();
    for more in [1, 4, 16, 50] {
        all.push([&whole[..], &vec![0x00; more]].concat());
    }
    for (place, byte) in [
        (0, 0x07),
        (1, 0x0F),
        (2, 0x2A),
        (3, 0x35),
        (4, 0x01),
        (4, 0x03),
        (4, 0x00),
        (4, 0x80),
        (5, 0x00),
        (5, 0x06),
        (5, 0x12),
        (5, 0x80),
        (6, 0x00),
        (6, 0x80),
        (7, 0x00),
        (7, 0x80),
        (8, 0x80),
        (9, 0x80),
        (12, 0x01),
        (15, 0x81),
    ] {
        let mut changed = whole.clone();
        changed[place] = byte;
        all.push(changed);
    }
    all.extend(WORDS.map(hex::bytes));
    all
}

/// Feeds of every sort: empty, with the source key or without it, with a bad triplet.
fn feeds_of() -> [Vec<Vec<u8>>; 4] {
    [vec![], vec![triplet(SET_03, "07 00"), other(2)], vec![other(3)], vec![other(3), vec![0x00; 5]]]
}

/// A source that is no group's key gives 5, also where no triplet has it.
pub fn source(feeds: &mut Feeds, _seed: u64) {
    for source in no_groups() {
        for triplets in feeds_of() {
            let bad = FeedCall { source: source.clone(), ..call(SET_03, SET_01, &triplets) };
            feeds.refused("a source", &bad, (5, 0));
        }
    }
}

/// A target that is none gives 3.
pub fn target(feeds: &mut Feeds, _seed: u64) {
    for target in no_groups() {
        for triplets in feeds_of() {
            let bad = FeedCall { target: target.clone(), ..call(SET_03, SET_01, &triplets) };
            feeds.refused("a target", &bad, (3, 0));
        }
    }
}

/// Keys with words of several bytes, also one that ends with 00: they are those of groups.
pub fn words(feeds: &mut Feeds, _seed: u64) {
    for label in ["0F81000500000000", "0F81818181818100", "8100810081008100", "FFFFFFFFFFFFFF7F", "0000000000000000"] {
        let [source, target] = ["03", "01"].map(|byte| format!("060E2B3402{byte}0101{label}"));
        let triplets = [triplet(&source, "07 00"), other(2), triplet(&source, "08 00"), triplet(&target, "-")];
        feeds.counts("words of several bytes", &call(&source, &target, &triplets), [1, 1, 2]);
    }
}

/// Every byte 6, under a label that is also a global set's: only those of groups pass.
pub fn byte_6(feeds: &mut Feeds, _seed: u64) {
    for byte in 0x00..=0xFF {
        let mut wanted: Key = key("060E2B34020305010F01010100000000");
        wanted[5] = byte;
        let group = SORTS.iter().any(|(sort, ..)| *sort == byte);
        feeds.tally.equal(Group::of_key(&wanted).is_some(), group, || format!("byte 6 {byte:02X}"));
        let good = FeedCall { source: wanted.to_vec(), ..call(SET_03, SET_01, &[other(2)]) };
        let bad = FeedCall { target: wanted.to_vec(), ..call(SET_03, SET_01, &[other(2)]) };
        if group {
            feeds.counts("a source of a group", &good, [0, 0, 1]);
            feeds.counts("a target of a group", &bad, [0, 0, 1]);
        } else {
            feeds.refused("a source of no group", &good, (5, 0));
            feeds.refused("a target of no group", &bad, (3, 0));
        }
    }
}
