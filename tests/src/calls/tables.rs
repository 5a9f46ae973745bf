//! Lent tables, valid and damaged.
use crate::call::Call;
use crate::compare_calls::Calls;
use crate::generate::plan::Plan;
use crate::generate::table::{self, Record};
use crate::generate::{key, room, wire};
use crate::random::Random;

pub fn all(calls: &mut Calls, seed: u64) {
    let mut random = Random::new(seed ^ 0x80);
    for [source, target] in [[0x53, 0x01], [0x01, 0x44], [0x01, 0x01], [0x02, 0x0B], [0x05, 0x05], [0x05, 0x01]] {
        let mut plan = Plan::with_lengths(&mut random, source, target, &[2, 0, 3]);
        if [source, target] == [0x05, 0x01] {
            plan.measure_more(&mut random, 2, 30);
        }
        let call = wire::call(&mut random, &plan, false);
        let tag_records = |call: &mut Call, bytes| call.tags = bytes;
        let pack_records = |call: &mut Call, bytes| call.packs = bytes;
        records(calls, &mut random, &call, &plan.tags, tag_records);
        records(calls, &mut random, &call, &plan.packs, pack_records);
        sizes(calls, &mut random, &call, tag_records);
        sizes(calls, &mut random, &call, pack_records);
        limits(calls, &mut random, &call, tag_records);
        limits(calls, &mut random, &call, pack_records);
    }
}

fn lend(calls: &mut Calls, random: &mut Random, call: &Call, table: Vec<u8>, put: fn(&mut Call, Vec<u8>)) {
    let mut call = call.clone();
    put(&mut call, table);
    let output = room::output(random, &call);
    let _ = calls.regroup(&call, output);
    let count = room::count_of(&call).unwrap_or(0);
    calls.listing(&call, 16 * count, 3 * count);
}

/// A few records with each of some changes.
fn records(calls: &mut Calls, random: &mut Random, call: &Call, own: &[Record], put: fn(&mut Call, Vec<u8>)) {
    let keys: Vec<_> = (0..4).map(|_| key::any(random)).collect();
    let others = table::tag_table(random, &keys, u32::MAX);
    for base in [own, &others] {
        for i in 0..base.len() {
            for table in changed(random, base, i) {
                lend(calls, random, call, table::bytes(&table), put);
            }
        }
    }
}

/// The records with one of them changed.
fn changed(random: &mut Random, records: &[Record], i: usize) -> Vec<Vec<Record>> {
    let with = |change: &dyn Fn(&mut Vec<Record>)| {
        let mut table = records.to_vec();
        change(&mut table);
        table
    };
    let near = key::near(random, &records[i].1);
    let first = records[0];
    vec![
        with(&|table| table.swap(0, i)),
        with(&|table| table[i].0 = first.0),
        with(&|table| table[i].1 = first.1),
        with(&|table| table[i].1 = near),
        with(&|table| table[i].1[0] = 0x07),
        with(&|table| table[i].1[7] = 0x00),
        with(&|table| table[i].1[7] = 0x80),
        with(&|table| table[i].1[4..6].copy_from_slice(&[0x02, 0x06])),
        with(&|table| table[i].1[4..6].copy_from_slice(&[0x02, 0x01])),
        with(&|table| table[i].1[8] = 0x80),
        with(&|table| table[i].1[15] = 0x81),
        with(&|table| table[i].1[8..].copy_from_slice(&[0x01, 0x00, 0x01, 0, 0, 0, 0, 0])),
        with(&|table| table[i].1[8..].copy_from_slice(&[0x81, 0x00, 0x01, 0, 0, 0, 0, 0])),
        with(&|table| table[i].1[8..].fill(0x00)),
        with(&|table| {
            table.remove(i);
        }),
        with(&|table| table.insert(i, first)),
        with(&|table| table[i].0 = table[i].0.wrapping_add(1)),
        with(&|table| table[i].0 = u32::MAX),
        with(&|table| table[i].0 = 0),
    ]
}

/// Tables of every size from 0 to 61 bytes.
fn sizes(calls: &mut Calls, random: &mut Random, call: &Call, put: fn(&mut Call, Vec<u8>)) {
    let keys: Vec<_> = (0..4).map(|_| key::any(random)).collect();
    let whole = table::bytes(&table::tag_table(random, &keys, u32::MAX));
    for size in 0..=61 {
        lend(calls, random, call, whole[..size].to_vec(), put);
    }
}

/// Tables of 255 to 258 records, and of many more bytes; one damaged in its last record.
fn limits(calls: &mut Calls, random: &mut Random, call: &Call, put: fn(&mut Call, Vec<u8>)) {
    let records: Vec<Record> = (0..400).map(|i| (i, numbered(i))).collect();
    for count in [255, 256, 257, 258, 400] {
        let table = table::bytes(&records[..count]);
        lend(calls, random, call, table.clone(), put);
        for (offset, byte) in [(1, 0x85), (9, 0x00), (16, 0x00), (17, 0x00)] {
            let mut damaged = table.clone();
            let place = damaged.len() - offset;
            damaged[place] = byte;
            lend(calls, random, call, damaged, put);
        }
        let mut repeated = records[..count].to_vec();
        repeated[count - 1].1 = repeated[0].1;
        lend(calls, random, call, table::bytes(&repeated), put);
        let mut falling = records[..count].to_vec();
        falling[count - 1].0 = falling[count - 2].0;
        lend(calls, random, call, table::bytes(&falling), put);
    }
}

/// One of many different keys.
fn numbered(i: u32) -> crate::groups::Key {
    let mut key = [0x06, 0x0E, 0x2B, 0x34, 1, 1, 1, 1, 0x0E, 1, 1, 0, 0, 0, 0, 0];
    key[9] = 1 + (i / 100) as u8;
    key[10] = 1 + (i % 100) as u8;
    key
}
