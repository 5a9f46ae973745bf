//! Lent tables: of 0, 1, 16 and 256 records, and damaged ones, which are refused also where nothing needs them.
use super::build::{call, other, triplet};
use crate::calls::literals::{record, ITEM, PACK_04, PACK_05, SET_01, SET_03};
use crate::compare_feed::Feeds;
use crate::feed_call::FeedCall;
use crate::generate::feed::{self, Run};
use crate::generate::plan::Plan;
use crate::generate::wire;
use crate::hex;
use crate::random::Random;

/// One byte 6 of each kind.
const KINDS: [u8; 5] = [0x01, 0x02, 0x03, 0x04, 0x05];

/// Every kind to every kind, with tables for 0, 1, 16 and 256 items.
pub fn valid(feeds: &mut Feeds, seed: u64) {
    let mut random = Random::new(seed ^ 0xF0);
    for source in KINDS {
        for target in KINDS {
            for count in [0, 1, 16, 256] {
                let lengths: Vec<usize> = (0..count).map(|_| random.below(4)).collect();
                let plan = Plan::with_lengths(&mut random, source, target, &lengths);
                let groups = [false, true].map(|longer| wire::group(&mut random, &plan, &plan.source, longer));
                let damaged = feed::damaged(&mut random, &plan);
                let call = Run::new(&plan, vec![other(2), groups.concat(), damaged, other(0)]).call();
                let [_, counts @ .., number, place] = feeds.whole(&call);
                let got = (counts[0] >= 2, counts.iter().sum(), number, place);
                feeds.tally.equal(got, (true, 5, 0, 0), || format!("{source:02X} to {target:02X}: {}", call.text()));
            }
        }
    }
}

/// This many records of different keys, with rising numbers.
fn records(count: u32) -> Vec<u8> {
    let key = |n: u32| format!("060E2B34010101010F02{:02X}{:02X}00000000", 1 + n / 100, 1 + n % 100);
    hex::bytes(&(0..count).map(|n| record(n, &key(n))).collect::<String>())
}

/// No key, as bytes 5 and 6 are 02 and 06.
const RESERVED: &str = "060E2B34020601010F02000000000000";

/// Tables that neither tag table nor pack table may be.
fn bad_tables() -> Vec<Vec<u8>> {
    let changed = |place: usize, byte: u8| {
        let mut table = records(3);
        table[place] = byte;
        table
    };
    let keys = [(4, 0x07), (24, 0x07), (44, 0x07), (11, 0x00), (48, 0x80), (51, 0x80), (12, 0x80), (59, 0x01)];
    let mut tables: Vec<Vec<u8>> = keys.map(|(place, byte)| changed(place, byte)).into();
    tables.extend([1, 19, 21, 59].map(|size| records(3)[..size].to_vec()));
    tables.extend([257, 260].map(records));
    tables.push(hex::bytes(&record(7, RESERVED)));
    tables
}

/// Tag tables with equal and falling tags, and with a key twice.
fn bad_tags() -> Vec<Vec<u8>> {
    let order = |numbers: [usize; 3]| numbers.map(|n| records(3)[20 * n..20 * n + 20].to_vec()).concat();
    let mut tables = vec![order([0, 2, 1]), order([1, 0, 2]), order([0, 0, 1])];
    let mut same_tag = records(3);
    same_tag.copy_within(20..24, 40);
    let mut same_key = records(3);
    same_key.copy_within(4..20, 44);
    tables.extend([same_tag, same_key]);
    tables
}

/// Feeds that need no table, only the tag table, or only the pack table; with the source key or without it.
fn calls() -> Vec<FeedCall> {
    let mut calls = Vec::new();
    for (source, target) in [(SET_01, SET_01), (SET_03, SET_01), (PACK_04, SET_01), (SET_01, PACK_05)] {
        for triplets in [vec![], vec![other(1)], vec![triplet(source, "-"), other(1)], vec![vec![0x00; 3]]] {
            calls.push(call(source, target, &triplets));
        }
    }
    calls
}

pub fn damaged(feeds: &mut Feeds, _seed: u64) {
    for call in calls() {
        for table in [bad_tables(), bad_tags()].concat() {
            feeds.refused("a tag table", &FeedCall { tags: table, ..call.clone() }, (1, 0));
        }
        for table in bad_tables() {
            feeds.refused("a pack table", &FeedCall { packs: table.clone(), ..call.clone() }, (2, 0));
            let both = FeedCall { packs: table.clone(), tags: table, ..call.clone() };
            feeds.refused("both tables", &both, (1, 0));
        }
        let repeated = hex::bytes(&record(0, ITEM).repeat(3));
        feeds.whole(&FeedCall { packs: repeated, ..call });
    }
}
