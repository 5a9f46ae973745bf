//! Groups of other makers' programs (data/groups.tsv), alone and inside other sets.
use super::answers::output_of;
use crate::call::Call;
use crate::compare_deep::Deep;
use crate::generate::nested::{self, item};
use crate::generate::wire::enclose;
use crate::groups::Key;
use crate::hex;

/// Name, tag table, pack table, group, maker, remark.
const SAMPLES: &str = include_str!("../../data/groups.tsv");

pub fn all(deep: &mut Deep, _seed: u64) {
    let mut written = 0;
    for line in SAMPLES.lines().filter(|line| !line.starts_with('#')) {
        let fields: Vec<&str> = line.split('\t').collect();
        let [tags, group] = [fields[1], fields[3]].map(hex::bytes);
        let call = nested::call(tags, group);
        written += usize::from(write(deep, &call));
        for depth in 2..=5 {
            write(deep, &call.with_group(within(&call.group, depth)));
        }
    }
    println!("samples: {written} written in universal form");
    deep.tally.equal(written > 20, true, || "samples that are written".to_string());
}

fn write(deep: &mut Deep, call: &Call) -> bool {
    let room = output_of(call).map_or(100, |output| output.len());
    deep.write(call, room).is_ok()
}

/// The group as a set at this depth, in universal sets of its own key; its outer length is written in another form.
fn within(group: &[u8], depth: usize) -> Vec<u8> {
    let key: Key = group[..16].try_into().expect("a group's key");
    let mut outermost = key;
    outermost[5] = 0x01;
    let width = if group[16] < 0x80 { 1 } else { 1 + usize::from(group[16] & 0x0F) };
    let mut contents = item(0x01, &(0, key), &group[16 + width..]);
    for _ in 2..depth {
        contents = item(0x01, &(0, outermost), &contents);
    }
    enclose(&outermost, &contents)
}
