//! Groups of other makers' programs (data/groups.tsv): each is read, listed, written to every kind that takes it, and
//! brought back. Some have a longer outer length; none has an item with a longer form.
use crate::call::Call;
use crate::compare_calls::{Calls, Items};
use crate::generate::room;
use crate::generate::set::sort_of;
use crate::generate::table::{self, Record};
use crate::groups::kind::{Sort, SORTS};
use crate::groups::{Key, MOST_ITEMS};
use crate::hex;
use std::collections::BTreeSet;

/// Name, tag table, pack table, group, maker, remark.
pub const SAMPLES: &str = include_str!("../../data/groups.tsv");

/// The samples that are not read, and the answers for them: tables in another order than by tag or with a record that
/// is no key, a tag that the table does not list, and triplets that are no groups.
const REFUSED: [(&str, u64); 6] = [
    ("ff_mpeg2_pcm.mxf@2764 Identification, primer in file order", 1_001_000),
    ("ff_mpeg2_pcm.mxf@2764 Identification, primer with a dark record", 1_001_000),
    ("gst_raw_pcm.mxf@1488 Identification, primer in file order", 1_001_000),
    ("gst_raw_pcm.mxf@47292 IndexTableSegment", 1_020_001),
    ("ff_long_gop.mxf@281580 Fill", 1_005_000),
    ("ff_long_gop.mxf@1135104 KLV 060E2B34010201010D01030115010500", 1_005_000),
];

/// What became of the samples.
#[derive(Default)]
struct Sum {
    read: usize,
    items: usize,
    longer: u64,
    refused: Vec<(&'static str, u64)>,
    written: usize,
    brought_back: usize,
    shorter: usize,
}

pub fn all(calls: &mut Calls, _seed: u64) {
    let mut sum = Sum::default();
    for line in SAMPLES.lines().filter(|line| !line.starts_with('#')) {
        let fields: Vec<&str> = line.split('\t').collect();
        let [tags, packs, group] = [fields[1], fields[2], fields[3]].map(hex::bytes);
        sample(calls, &mut sum, fields[0], &Call { tags, packs, target: Vec::new(), group });
    }
    calls.tally.equal(&sum.refused[..], &REFUSED, || "the samples that are not read".to_string());
    calls.tally.equal(sum.longer, 0, || "items of the samples in longer forms".to_string());
    print(&sum);
}

fn sample(calls: &mut Calls, sum: &mut Sum, name: &'static str, call: &Call) {
    let listed = calls.listing_longer(call, 16 * MOST_ITEMS, 3 * MOST_ITEMS);
    let Some(items) = calls.list(call) else {
        sum.refused.push((name, listed.listed.answer));
        let _ = calls.regroup(&call.with_target(&call.group[..16]), 100);
        return;
    };
    sum.read += 1;
    sum.items += items.len();
    sum.longer += listed.longer;
    for call in [call, &with_own_tables(call, &items)] {
        for target in targets(call) {
            to_and_back(calls, sum, name, &call.with_target(&target));
        }
    }
}

/// The call with a tag table and a pack table of its own items, where its group does not use the table that it has.
fn with_own_tables(call: &Call, items: &Items) -> Call {
    let mut call = call.clone();
    let sort = sort_of(call.group[5]);
    if !matches!(sort, Sort::Local(_)) {
        let keys: BTreeSet<Key> = items.iter().map(|item| item.0).collect();
        call.tags = table::bytes(&(0..).zip(keys).collect::<Vec<Record>>());
    }
    if !matches!(sort, Sort::VariablePack | Sort::DefinedPack) {
        let records: Vec<Record> = items.iter().map(|(key, value)| (value.len() as u32, *key)).collect();
        call.packs = table::bytes(&records);
    }
    call
}

/// The group's own key with every group byte, and global sets over the keys of its items.
fn targets(call: &Call) -> Vec<Vec<u8>> {
    let mut targets = Vec::new();
    for (byte, sort, _) in SORTS {
        let mut target = call.group[..16].to_vec();
        target[5] = byte;
        if sort != Sort::Global {
            targets.push(target);
            continue;
        }
        target[6..].copy_from_slice(&[0x03, 0x01, 0x2B, 0x34, 0, 0, 0, 0, 0, 0]);
        targets.push(target.clone());
        target[6..].copy_from_slice(&[0x01, 0x01, 0x06, 0x0E, 0x2B, 0x34, 0x01, 0x01, 0x01, 0x00]);
        targets.push(target);
    }
    targets
}

/// One call, with just enough room; where it is accepted, the call back gives the group again, written anew.
fn to_and_back(calls: &mut Calls, sum: &mut Sum, name: &str, call: &Call) {
    let needed = room::output_of(call).map_or(70_000, |output| output.len());
    let Ok(output) = calls.regroup(call, needed) else {
        return;
    };
    sum.written += 1;
    let own = call.with_target(&call.group[..16]);
    let Ok(rewritten) = calls.regroup(&own, call.group.len()) else {
        return calls.tally.equal(true, false, || format!("{name} is written as it was: {}", own.text()));
    };
    let back = calls.regroup(&own.with_group(output), rewritten.len());
    let same = back.as_ref() == Ok(&rewritten);
    calls.tally.equal(same, true, || format!("{name} is brought back: {}", call.text()));
    sum.brought_back += usize::from(same);
    sum.shorter += usize::from(rewritten.len() < call.group.len());
}

fn print(sum: &Sum) {
    println!(
        "samples: {} read, with {} items, {} of them in longer forms than needed",
        sum.read, sum.items, sum.longer
    );
    for (name, answer) in &sum.refused {
        println!("samples: {answer} for {name}");
    }
    println!("samples: {} groups written to other kinds, {} brought back", sum.written, sum.brought_back);
    println!("samples: {} of these came with longer forms of lengths", sum.shorter);
}
