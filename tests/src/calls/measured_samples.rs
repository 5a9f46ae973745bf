//! Groups of other makers' programs (data/groups.tsv) as elements that measure themselves (02, point 5), and their packs
//! under tables with one record of FF FF FF FF.
use super::elements::{both_ways, constant, measured, plan, Element};
use super::literals::{key, ITEM};
use super::samples::SAMPLES;
use crate::call::Call;
use crate::compare_calls::Calls;
use crate::generate::room;
use crate::generate::wire::{enclose, shortest_ber};
use crate::groups::{Key, MOST_BYTES};
use crate::hex;

/// The tables and the groups of all samples.
fn samples() -> Vec<Call> {
    let lines = SAMPLES.lines().filter(|line| !line.starts_with('#'));
    let sample = |line: &str| {
        let fields: Vec<&str> = line.split('\t').collect();
        let [tags, packs, group] = [fields[1], fields[2], fields[3]].map(hex::bytes);
        Call { tags, packs, target: group[..16].to_vec(), group }
    };
    lines.map(sample).collect()
}

/// Each sample alone and beside the next one, and as many as a group takes; written to other kinds and brought back.
pub fn elements(calls: &mut Calls, _seed: u64) {
    let groups: Vec<Vec<u8>> = samples().into_iter().map(|sample| sample.group).collect();
    for pair in groups.windows(2) {
        let elements = [measured(&pair[0]), constant(&[0xAB, 0xCD]), measured(&pair[1]), measured(&pair[0])];
        both_ways(calls, "a sample", &plan(&elements[..1]), &[0x01, 0x04, 0x05, 0x64, 0x53]);
        both_ways(calls, "two samples", &plan(&elements), &[0x01, 0x04, 0x05]);
    }
    let mut room = MOST_BYTES - 100;
    let many = groups.iter().take_while(|group| {
        let taken = group.len() + 40 <= room;
        room = room.saturating_sub(group.len() + 40);
        taken
    });
    let many: Vec<Element> = many.map(|group| measured(group)).collect();
    println!("samples: {} as elements that measure themselves, {} in one pack", groups.len(), many.len());
    both_ways(calls, "many samples", &plan(&many), &[0x01, 0x04, 0x05, 0x53]);
}

/// The samples that are defined-length packs, and the universal sets of the same items.
fn defined_packs() -> Vec<(Call, Vec<u8>)> {
    let packs = samples().into_iter().filter(|sample| sample.group[5] == 0x05);
    let with_set = |mut sample: Call| {
        let own = sample.target.clone();
        sample.target[5] = 0x01;
        let set = room::output_of(&sample)?;
        Some((sample.with_target(&own), set))
    };
    packs.filter_map(with_set).collect()
}

/// Each record of each pack in turn with FF FF FF FF: read, and written from the universal set.
pub fn packs(calls: &mut Calls, _seed: u64) {
    let [mut tried, mut read] = [0, 0];
    for (sample, set) in defined_packs() {
        for record in 0..sample.packs.len() / 20 {
            let mut marked = sample.with_target(&set[..16]);
            marked.packs[20 * record..][..4].fill(0xFF);
            tried += 1;
            let needed = room::output_of(&marked).map_or(100, |output| output.len());
            read += usize::from(calls.regroup(&marked, needed).is_ok());
            let back = marked.with_group(set.clone()).with_target(&sample.target);
            let _ = calls.regroup(&back, sample.group.len());
        }
    }
    println!("samples: {tried} packs with a record of FF FF FF FF, {read} of them read");
}

/// Each pack with a sample as one element more, before its own and after them.
pub fn longer_packs(calls: &mut Calls, _seed: u64) {
    let groups: Vec<Vec<u8>> = samples().into_iter().map(|sample| sample.group).collect();
    for (n, (sample, set)) in defined_packs().into_iter().enumerate() {
        let more = &groups[n % groups.len()];
        let item = [&key(ITEM)[..], &shortest_ber(more.len() as u64), more].concat();
        let record = [&[0xFF; 4], &key(ITEM)[..]].concat();
        let [own, items] = [contents(&sample.group), contents(&set)];
        for (packs, pack, set_items) in [
            ([&record[..], &sample.packs].concat(), [more, own].concat(), [&item, items].concat()),
            ([&sample.packs[..], &record].concat(), [own, more].concat(), [items, &item].concat()),
        ] {
            let pack = enclose(&key_in(&sample.group), &pack);
            let set = enclose(&key_in(&set), &set_items);
            let there = Call { tags: Vec::new(), packs, target: set[..16].to_vec(), group: pack.clone() };
            calls.regroup_is("a longer pack", &there, Ok(&set));
            calls.regroup_is("a longer pack", &there.with_group(set).with_target(&pack[..16]), Ok(&pack));
        }
    }
}

fn key_in(group: &[u8]) -> Key {
    group[..16].try_into().expect("a group's key")
}

/// What stands behind the outer length of a group.
fn contents(group: &[u8]) -> &[u8] {
    let width = if group[16] < 0x80 { 1 } else { 1 + usize::from(group[16] & 0x0F) };
    &group[16 + width..]
}
