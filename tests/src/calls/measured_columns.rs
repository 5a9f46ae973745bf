//! Lengths in pack tables beside FF FF FF FF, which alone says that an element measures itself, and FF FF FF FF where it
//! says nothing (02, point 5).
use super::elements::{both_ways, bytes, constant, from_to, measured, plan, triplet, Element};
use super::literals::{key, ITEM};
use crate::compare_calls::Calls;
use crate::generate::measured::MARK;
use crate::generate::wire::wrap;

/// Lengths that are constant, and more than any group has.
const CONSTANT: [u32; 12] = [
    0xFFFF_FFFE, 0xFFFF_FFFD, 0xFFFF_FF7F, 0xFFFF_FF00, 0xFFFF_00FF, 0xFF00_FFFF, 0x00FF_FFFF, 0x7FFF_FFFF,
    0x8000_0000, 0xFFFF_0000, 0x0000_FFFF, 0x0001_0000,
];

/// Each of them with a whole triplet: 9 on reading, 13 on writing.
pub fn constants(calls: &mut Calls, _seed: u64) {
    for length in CONSTANT {
        for before in 0..3 {
            let good: Vec<Element> = (0..before).map(|n| measured(&triplet(n))).collect();
            for value in [triplet(0), triplet(2), vec![], vec![0xAB]] {
                let plan = plan(&[good.clone(), vec![(length, value)]].concat());
                let name = format!("a length of {length:08X}");
                calls.regroup_is(&name, &from_to(&plan, 0x05, 0x01), Err((9, before as u64)));
                calls.listing_is(&name, &from_to(&plan, 0x05, 0x01), Err((9, before as u64)));
                calls.regroup_is(&name, &from_to(&plan, 0x01, 0x05), Err((13, before as u64)));
            }
        }
    }
    for length in 0..40 {
        let mut value = triplet(40 - 17);
        value.truncate(length);
        both_ways(calls, "a constant length", &plan(&[constant(&value), measured(&triplet(1))]), &[0x01, 0x04]);
    }
}

/// Variable-length packs under FF FF FF FF take any value; a defined-length pack takes the triplets alone.
pub fn variable_packs(calls: &mut Calls, _seed: u64) {
    let longer = wrap(&key(ITEM), &[0x81, 0x01], &[0xAB]);
    let cut = triplet(5)[..20].to_vec();
    for (value, whole) in [
        (vec![], false),
        (vec![0xAB], false),
        (vec![0xFF; 4], false),
        (cut, false),
        ([triplet(2), vec![0x00]].concat(), false),
        (longer, true),
        (triplet(0), true),
        (triplet(200), true),
    ] {
        let plan = plan(&[(MARK, value), (MARK, triplet(1))]);
        for source in [0x04, 0x24, 0x44, 0x64, 0x01, 0x53] {
            for target in [0x04, 0x24, 0x44, 0x64, 0x01] {
                let output = bytes(&plan, target);
                calls.regroup_is("a variable-length pack", &from_to(&plan, source, target), Ok(&output));
            }
            let call = from_to(&plan, source, 0x05);
            let output = bytes(&plan, 0x05);
            calls.regroup_is("to the defined-length pack", &call, if whole { Ok(&output) } else { Err((13, 0)) });
            calls.longer_is("a variable-length pack", &call, Ok(0));
        }
    }
}

/// A table of FF FF FF FF is never refused for that, also where no pack is; with a record that is no key it still is.
pub fn tables(calls: &mut Calls, _seed: u64) {
    let sound = plan(&[measured(&triplet(0)), measured(&triplet(1))]);
    let call = from_to(&sound, 0x01, 0x53);
    let output = bytes(&sound, 0x53);
    for count in [1, 2, 3, 255, 256, 257] {
        let mut call = call.clone();
        call.packs = [&[0xFF; 4], &key(ITEM)[..]].concat().repeat(count);
        calls.regroup_is("no pack", &call, if count <= 256 { Ok(&output) } else { Err((2, 0)) });
        for at in [4, 20 * count - 1] {
            let mut damaged = call.clone();
            damaged.packs[at] = 0x80;
            calls.regroup_is("a record that is no key", &damaged, Err((2, 0)));
        }
    }
}
