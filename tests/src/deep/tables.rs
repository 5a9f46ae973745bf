//! Lent tag tables, valid and damaged. A damaged one is refused before all else, also where nothing is local.
use super::build::{call, chain, inside, tags};
use crate::call::Call;
use crate::compare_deep::Deep;
use crate::generate::bytes::BOUNDARY;
use crate::generate::nested::{item, SETS};
use crate::generate::table::{self, Record};
use crate::groups::Key;

/// Calls that are accepted, also one of universal sets alone, which needs no table; then some that are refused.
fn calls() -> Vec<Call> {
    let mut calls: Vec<Call> = SETS.map(|byte| call(byte, &chain(&[byte; 3], &[]))).into();
    calls.push(call(0x01, &[0x07]));
    calls.push(call(0x01, &chain(&[0x01; 5], &[])));
    calls.push(call(0x01, &chain(&[0x01; 2], &[0xFF])));
    calls.push(call(0x05, &[]));
    calls.push(calls[0].with_group(Vec::new()));
    calls.push(calls[0].with_group(vec![0x00; 65_537]));
    calls
}

pub fn damaged(deep: &mut Deep, _seed: u64) {
    for table in bad_tables() {
        for call in calls() {
            deep.refused("a damaged tag table", &Call { tags: table.clone(), ..call }, (1, 0));
        }
    }
}

/// Tables that 01 does not allow.
fn bad_tables() -> Vec<Vec<u8>> {
    let good = tags();
    let with = |change: &dyn Fn(&mut Vec<u8>)| {
        let mut table = good.clone();
        change(&mut table);
        table
    };
    vec![
        with(&|table| table.push(0x00)),
        with(&|table| table.truncate(table.len() - 1)),
        with(&|table| table.extend_from_slice(&good)),
        with(&|table| table[..20].rotate_left(4)),
        with(&|table| table.rotate_left(20)),
        with(&|table| table.copy_within(0..4, 20)),
        with(&|table| table.copy_within(4..20, 24)),
        with(&|table| table[4] = 0x07),
        with(&|table| table[11] = 0x00),
        with(&|table| table[28..30].copy_from_slice(&[0x02, 0x06])),
        with(&|table| table[39] = 0x81),
        table::bytes(&numbered(257)),
    ]
}

/// Every byte of a small table changed, and tables of every size to 61 bytes.
pub fn changed(deep: &mut Deep, _seed: u64) {
    let call = call(0x03, &[0x07, 0x00, 0x10, 0x00, 0x11, 0x02, 0x07, 0x00]);
    let whole = call.tags[..80].to_vec();
    for size in 0..=61 {
        let _ = deep.write(&Call { tags: whole[..size].to_vec(), ..call.clone() }, 200);
    }
    for place in 0..whole.len() {
        for byte in BOUNDARY.into_iter().chain([whole[place].wrapping_add(1), whole[place] ^ 0x80]) {
            let mut tags = whole.clone();
            tags[place] = byte;
            let _ = deep.write(&Call { tags, ..call.clone() }, 200);
        }
    }
}

/// Tables of 2, 255 and 256 records. The first and the last have keys of sets that differ in byte 8 only.
pub fn valid(deep: &mut Deep, _seed: u64) {
    for byte in SETS {
        for count in [2, 255, 256] {
            let mut records = numbered(count);
            let last = records.len() - 1;
            records[0].1 = inside(byte);
            records[last].1 = inside(byte);
            records[last].1[7] = 0x02;
            let mut contents = Vec::new();
            for _ in 0..3 {
                let items = [records[last], records[0]].map(|record| item(byte, &record, &[]));
                contents = [&items.concat()[..], &item(byte, &records[0], &contents)].concat();
            }
            let call = Call { tags: table::bytes(&records), ..call(byte, &contents) };
            deep.accepted("a valid tag table", &call);
        }
    }
}

/// This many records, of tags that every set takes where there are at most 256.
fn numbered(count: u32) -> Vec<Record> {
    let key = |i: u32| -> Key {
        let mut key = [0x06, 0x0E, 0x2B, 0x34, 1, 1, 1, 1, 0x0E, 1, 1, 0, 0, 0, 0, 0];
        key[9..11].copy_from_slice(&[1 + (i / 100) as u8, 1 + (i % 100) as u8]);
        key
    };
    (0..count).map(|i| (i, key(i))).collect()
}
