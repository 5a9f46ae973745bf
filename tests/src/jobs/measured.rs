//! Jobs with elements that measure themselves (02, point 5): their lines, and their refusals 9 and 13.
use crate::calls::elements::{constant, from_to, measured, plan, triplet};
use crate::calls::literals::{call, record, ITEM, PACK_04, PACK_05, SET_01, SET_53};
use crate::compare_jobs::Jobs;
use crate::generate::job;
use crate::hex;

/// The key inside the elements.
const INNER: &str = "060E2B34010101010F03000000000000";

/// A pack of a measured element, a constant one and a measured one, and the universal set of the same items.
const RECORDS: [u32; 3] = [u32::MAX, 2, u32::MAX];

pub fn lines(jobs: &mut Jobs, _seed: u64) {
    let packs: String = RECORDS.iter().map(|length| record(*length, ITEM)).collect();
    let elements = [format!("{INNER}02ABCD"), "0102".to_string(), format!("{INNER}820001FF")];
    let pack = format!("{PACK_05}29{}", elements.concat());
    let set = format!("{SET_01}5C{ITEM}13{}{ITEM}02{}{ITEM}14{}", elements[0], elements[1], elements[2]);
    let variable = format!("{PACK_04}2C13{}02{}14{}", elements[0], elements[1], elements[2]);
    for (output, offsets) in [(&pack, [17, 36, 38]), (&set, [34, 70, 89]), (&variable, [18, 38, 41])] {
        let mut text = format!("OK 3 {}\n", output.len() / 2);
        for (offset, length) in offsets.into_iter().zip([19, 2, 20]) {
            text += &format!("{ITEM} {offset} {length}\n");
        }
        text += &format!("{output}\n");
        for group in [&pack, &set, &variable] {
            let call = call("-", &packs, &output[..32], group);
            jobs.prints("measured elements", &job::file(&call), &text);
        }
    }
}

/// 9 and 13 at each place, a surplus, and a constant length of FF FF FF FE.
pub fn refusals(jobs: &mut Jobs, _seed: u64) {
    let good = [measured(&triplet(1)), constant(&[0xAB]), measured(&triplet(0)), measured(&triplet(130))];
    for place in [0, 2, 3] {
        let mut bad = good.clone();
        bad[place].1[0] = 0x07;
        jobs.prints("no key", &job::file(&from_to(&plan(&bad), 0x05, 0x01)), &format!("REFUSED 9 {place}\n"));
        jobs.prints("no key", &job::file(&from_to(&plan(&bad), 0x01, 0x05)), &format!("REFUSED 13 {place}\n"));
        bad[place] = measured(&[&good[place].1[..], &[0x00]].concat());
        jobs.prints("a byte more", &job::file(&from_to(&plan(&bad), 0x53, 0x05)), &format!("REFUSED 13 {place}\n"));
        bad[place] = (u32::MAX - 1, good[place].1.clone());
        jobs.prints("FF FF FF FE", &job::file(&from_to(&plan(&bad), 0x05, 0x01)), &format!("REFUSED 9 {place}\n"));
        jobs.prints("FF FF FF FE", &job::file(&from_to(&plan(&bad), 0x04, 0x05)), &format!("REFUSED 13 {place}\n"));
    }
    let surplus = format!("{PACK_05} 12 {INNER} 00 AB");
    let call = call("-", &record(u32::MAX, ITEM), SET_01, &surplus);
    jobs.prints("a byte after the element", &job::file(&call), "REFUSED 11 1\n");
    let cut = call.with_group(hex::bytes(&format!("{PACK_05} 11 {INNER} 01")));
    jobs.prints("a byte too few", &job::file(&cut), "REFUSED 9 0\n");
    let local = cut.with_target(&hex::bytes(SET_53));
    jobs.prints("9, then 12", &job::file(&local), "REFUSED 9 0\n");
}
