//! Elements of defined-length packs that measure themselves (02, point 5): read, listed, written to every kind and brought
//! back.
use super::elements::{both_ways, bytes, constant, from_to, measured, plan, triplet, Element};
use super::literals::{call, key, ITEM, PACK_05, SET_01, SET_53};
use crate::compare_calls::Calls;
use crate::generate::plan::Plan;
use crate::groups::kind::SORTS;
use crate::groups::Key;
use crate::hex;
use crate::literal::Place;

/// Packs written out: the listing gives the record's key and all of the triplet.
pub fn examples(calls: &mut Calls, _seed: u64) {
    let other = "060E2B34010101010F03000000000000";
    let tables = [format!("00000102 {ITEM}"), format!("FFFFFFFF {ITEM}")];
    for (element, length) in [
        (format!("{other} 00"), 17),
        (format!("{other} 02 ABCD"), 19),
        (format!("{other} 8100"), 18),
        (format!("{other} 8400000002 ABCD"), 23),
        (format!("{other} 880000000000000001 AB"), 26),
        (format!("{SET_53} 06 0102 0002 ABCD"), 23),
    ] {
        let pack = format!("{PACK_05} {length:02X} {element}");
        let universal = format!("{SET_01} {:02X} {ITEM} {length:02X} {element}", 17 + length);
        let local = format!("{SET_53} {:02X} 0102 {length:04X} {element}", 4 + length);
        for (group, offset) in [(&pack, 17), (&universal, 34), (&local, 21)] {
            for target in [&pack, &universal, &local] {
                let call = call(&tables[0], &tables[1], &target[..32], group);
                calls.regroup_is("a measured element", &call, Ok(&hex::bytes(target)));
                calls.listing_is("a measured element", &call, Ok(&[(key(ITEM), offset, length)]));
                calls.longer_is("a measured element", &call, Ok(0));
            }
        }
    }
}

/// Every choice of measured elements among constant ones, two of which have length 0.
pub fn choices(calls: &mut Calls, _seed: u64) {
    let constants: [&[u8]; 5] = [&[0x01, 0x02, 0x03], &[], &[0x04], &[], &[0x05, 0x06]];
    for chosen in 0..1 << constants.len() {
        let elements = constants.iter().enumerate().map(|(n, value)| match chosen >> n & 1 {
            1 => measured(&triplet(n)),
            _ => constant(value),
        });
        let plan = plan(&elements.collect::<Vec<Element>>());
        both_ways(calls, &format!("elements {chosen:05b}"), &plan, &[0x01, 0x04, 0x05]);
        let call = from_to(&plan, 0x05, 0x01);
        calls.listing_is("chosen elements", &call, Ok(&places(&plan)));
    }
}

/// Where the values of a pack of fewer than 256 bytes stand.
fn places(plan: &Plan) -> Vec<Place> {
    let mut at = 16 + if bytes(plan, 0x05).len() > 16 + 128 { 2 } else { 1 };
    let place = |(key, value): &(Key, Vec<u8>)| {
        let begin = at;
        at += value.len() as u32;
        (*key, begin, value.len() as u32)
    };
    plan.items.iter().map(place).collect()
}

/// From the pack to every kind and back, with constant elements between and inner lengths at borders.
pub fn kinds(calls: &mut Calls, _seed: u64) {
    let elements = [
        measured(&triplet(0)),
        measured(&triplet(1)),
        constant(&[0xAB, 0xCD]),
        measured(&triplet(127)),
        constant(&[]),
        measured(&triplet(128)),
        measured(&triplet(237)),
    ];
    for (byte, ..) in SORTS {
        both_ways(calls, "a pack", &plan(&elements), &[byte]);
        chain(calls, &plan(&elements), byte);
    }
}

/// The pack to another kind, that to a third, and that back to the pack.
fn chain(calls: &mut Calls, plan: &Plan, byte: u8) {
    for third in [0x01, 0x04, 0x24, 0x44, 0x64, 0x02, 0x53] {
        let mut kept = bytes(plan, 0x05);
        for target in [byte, third, 0x05] {
            let call = from_to(plan, 0x05, target).with_group(kept);
            kept = calls.regroup(&call, 2_000).unwrap_or_default();
        }
        let same = kept == bytes(plan, 0x05);
        calls.tally.equal(same, true, || format!("05 to {byte:02X} to {third:02X} to 05 gives the same bytes"));
    }
}
