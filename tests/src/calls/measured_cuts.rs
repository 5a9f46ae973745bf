//! Packs that are cut off or too long around elements that measure themselves, and which refusal comes first (02, point
//! 5).
use super::elements::{constant, from_to, group_key, key_of, measured, plan, triplet, Element};
use super::literals::{key, record, ITEM, SET_01};
use super::measured_refused::{good, not_written, BEFORE};
use crate::call::Call;
use crate::compare_calls::Calls;
use crate::generate::plan::Plan;
use crate::generate::wire::enclose;
use crate::hex;

/// A small pack that is cut off at every byte, and every value of a set too few by one byte and more.
pub fn cuts(calls: &mut Calls, _seed: u64) {
    let longer = [&key(SET_01)[..], &[0x82, 0x00, 0x01, 0xAB]].concat();
    let elements = [measured(&triplet(2)), constant(&[0x01, 0x02]), measured(&longer), measured(&triplet(0))];
    let whole = from_to(&plan(&elements), 0x05, 0x01);
    let contents = &whole.group[17..];
    for end in 0..contents.len() {
        let mut begin = 0;
        let ends = elements.iter().map(|(_, value)| {
            begin += value.len();
            begin
        });
        let place = ends.filter(|whole| *whole <= end).count() as u64;
        let cut = whole.with_group(enclose(&group_key(0x05), &contents[..end]));
        calls.regroup_is(&format!("cut off at {end}"), &cut, Err((9, place)));
        calls.listing_is(&format!("cut off at {end}"), &cut, Err((9, place)));
    }
    for place in 0..elements.len() {
        for length in 0..elements[place].1.len() {
            let mut short = elements.clone();
            short[place].1.truncate(length);
            calls.regroup_is("a shorter value", &from_to(&plan(&short), 0x01, 0x05), Err((13, place as u64)));
        }
    }
}

/// Bytes too many: after the last element 11, in a set's value 13. What is left of an element is the next one's.
pub fn surplus(calls: &mut Calls, _seed: u64) {
    for more in [&[0x00][..], &[0xAB, 0xCD], &triplet(0), &triplet(2)] {
        for last in [triplet(0), triplet(3)] {
            let long = [&last[..], more].concat();
            not_written(calls, "bytes after the triplet", &long);
            for before in BEFORE {
                let plan = plan(&[good(before), vec![measured(&long)]].concat());
                let call = from_to(&plan, 0x05, 0x01);
                calls.regroup_is("bytes after the last element", &call, Err((11, before as u64 + 1)));
                calls.listing_is("bytes after the last element", &call, Err((11, before as u64 + 1)));
            }
        }
    }
    let long = [triplet(1), vec![0xAB]].concat();
    let call = from_to(&plan(&[measured(&long), constant(&[0xCD])]), 0x05, 0x01);
    calls.regroup_is("a byte that the next element takes", &call, Err((11, 2)));
    let call = from_to(&plan(&[measured(&long), measured(&triplet(0))]), 0x05, 0x01);
    calls.regroup_is("a byte that the next triplet does not begin with", &call, Err((9, 1)));
    let plan = plan(&[measured(&triplet(1)), measured(&[])]);
    calls.regroup_is("no byte for the second", &from_to(&plan, 0x05, 0x01), Err((9, 1)));
    calls.regroup_is("no byte in the second value", &from_to(&plan, 0x01, 0x05), Err((13, 1)));
}

/// Each of several elements refused, alone and before another: the first one's place.
pub fn places(calls: &mut Calls, _seed: u64) {
    let good: Vec<Element> = (0..6).map(|n| measured(&triplet(n))).collect();
    for first in 0..good.len() {
        for second in first..good.len() {
            let mut bad = good.clone();
            for place in [first, second] {
                bad[place].1[16] = 0x80;
            }
            let plan = plan(&bad);
            let place = first as u64;
            calls.regroup_is("several on reading", &from_to(&plan, 0x05, 0x01), Err((9, place)));
            calls.listing_is("several on reading", &from_to(&plan, 0x05, 0x01), Err((9, place)));
            calls.regroup_is("several on writing", &from_to(&plan, 0x01, 0x05), Err((13, place)));
        }
    }
}

/// Which refusal comes first where there are more.
pub fn order(calls: &mut Calls, _seed: u64) {
    let bad = [triplet(1), vec![0xAB]].concat();
    let two = plan(&[measured(&bad), measured(&bad)]);
    calls.regroup_is("13 of the first of two", &from_to(&two, 0x01, 0x05), Err((13, 0)));
    calls.regroup_is("9, then 12", &with_other_keys(&two, 0x05, 0x53), Err((9, 1)));
    calls.regroup_is("12 and 13 of one item", &with_other_keys(&two, 0x01, 0x05), Err((12, 0)));
    let mut over = from_to(&two, 0x01, 0x05);
    over.packs.extend(hex::bytes(&record(u32::MAX, ITEM)));
    calls.regroup_is("13, then records over", &over, Err((13, 0)));
    let sound = plan(&[measured(&triplet(1)), measured(&triplet(1))]);
    let mut over = from_to(&sound, 0x01, 0x05);
    over.packs.extend(hex::bytes(&record(u32::MAX, ITEM)));
    calls.regroup_is("a measured record over", &over, Err((12, 2)));
    let mut fewer = from_to(&sound, 0x01, 0x05);
    fewer.packs.truncate(20);
    calls.regroup_is("an item past the measured record", &fewer, Err((12, 1)));
    let long = plan(&[constant(&[0xAB; 300]), measured(&bad)]);
    calls.regroup_is("11, then 13", &from_to(&long, 0x05, 0x24), Err((11, 2)));
    calls.regroup_is("13 of no triplet", &from_to(&long, 0x04, 0x05), Err((13, 1)));
    calls.regroup_is("13 of a long value", &from_to(&long, 0x04, 0x24), Err((13, 0)));
}

/// The call under tables whose first record's key is another, and no tags.
fn with_other_keys(plan: &Plan, source: u8, target: u8) -> Call {
    let mut call = from_to(plan, source, target);
    call.packs[4..20].copy_from_slice(&key_of(9));
    call.tags.clear();
    call
}
