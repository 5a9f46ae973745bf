//! How many items had a longer BER form than needed (02, point 7), in listings of every kind.
use super::literals::{call, record, ITEM, PACK_04, PACK_05, SET_01, SET_03, SET_0B, SET_1B, SET_23, SET_53, SET_63};
use crate::call::Call;
use crate::compare_calls::Calls;
use crate::generate::plan::Plan;
use crate::generate::table;
use crate::generate::wire::{self, contents, enclose, lengths_of, long_ber, longer_ber, shortest_ber, wrap};
use crate::groups::kind::SORTS;
use crate::hex;
use crate::numbers::Form;
use crate::random::Random;

/// Lengths of the items of a group, some of them at the borders of forms.
const LENGTHS: [usize; 6] = [0, 127, 1, 128, 255, 5];

/// Groups with the number of longer forms, written out.
pub fn examples(calls: &mut Calls, _seed: u64) {
    let global = "060E2B34020205010101010203000000";
    for (key, contents, longer) in [
        (SET_01, format!("{ITEM} 02 ABCD"), 0),
        (SET_01, format!("{ITEM} 81 02 ABCD {ITEM} 00 {ITEM} 84 00000001 AB"), 2),
        (SET_03, "07 05 0102030405 07 84 00000005 0102030405".to_string(), 1),
        (SET_0B, "07 81 00 07 82 0000 07 88 0000000000000000".to_string(), 3),
        (SET_1B, "00000007 83 000001 AB 00000007 01 AB".to_string(), 1),
        (SET_23, "07 02 8101 07 00".to_string(), 0),
        (SET_53, "0007 0001 AB 0007 0000".to_string(), 0),
        (SET_63, "07 00000001 AB 07 00000000".to_string(), 0),
        (global, "05 00 81 01 AB 05 00 01 AB".to_string(), 1),
        (PACK_04, "82 0001 AB 81 02 8105 01 AB".to_string(), 2),
    ] {
        let group = format!("{key} {} {contents}", hex::text(&shortest_ber(hex::bytes(&contents).len() as u64)));
        let packs = record(2, ITEM).repeat(3);
        calls.longer_is("an example", &call(&record(7, ITEM), &packs, "-", &group), Ok(longer));
    }
}

/// A plan of one group byte with values of these lengths, and what its call is lent without a group.
fn planned(random: &mut Random, byte: u8, lengths: &[usize]) -> (Plan, Call) {
    let plan = Plan::with_lengths(random, byte, byte, lengths);
    let [tags, packs] = [&plan.tags, &plan.packs].map(|records| table::bytes(records));
    let call = Call { tags, packs, target: plan.source.to_vec(), group: Vec::new() };
    (plan, call)
}

/// Every group byte with a longer outer length alone: it is not counted.
pub fn outer_length(calls: &mut Calls, seed: u64) {
    let mut random = Random::new(seed ^ 0x71);
    for (byte, ..) in SORTS {
        for lengths in [&LENGTHS[..], &[3, 0], &[]] {
            let (plan, call) = planned(&mut random, byte, lengths);
            let items = contents(&mut random, &plan, &plan.source, |_, _, length| shortest_ber(length));
            for count in 2..=8 {
                let group = wrap(&plan.source, &long_ber(items.len() as u64, count), &items);
                calls.longer_is("a longer outer length", &call.with_group(group), Ok(0));
            }
        }
    }
}

/// Every group byte, with every choice of items whose BER lengths are longer than needed: fixed lengths never are.
pub fn group_bytes(calls: &mut Calls, seed: u64) {
    let mut random = Random::new(seed ^ 0x72);
    for (byte, _, form) in SORTS {
        let (plan, call) = planned(&mut random, byte, &LENGTHS);
        for chosen in 0..1_u64 << LENGTHS.len() {
            let form_of = |_: &mut Random, n: usize, length: u64| match chosen >> n & 1 {
                0 => shortest_ber(length),
                _ => longer_ber(length),
            };
            let items = contents(&mut random, &plan, &plan.source, form_of);
            let call = call.with_group(enclose(&plan.source, &items));
            let longer = if form == Some(Form::Ber) { u64::from(chosen.count_ones()) } else { 0 };
            calls.longer_is(&format!("{byte:02X}, items {chosen:b}"), &call, Ok(longer));
        }
    }
}

/// One item, its length in every form of 1 to 9 bytes that holds it.
pub fn widths(calls: &mut Calls, seed: u64) {
    let mut random = Random::new(seed ^ 0x73);
    for (byte, ..) in SORTS.into_iter().filter(|(.., form)| *form == Some(Form::Ber)) {
        for length in [0, 1, 126, 127, 128, 255, 256, 257, 65_000] {
            let (plan, call) = planned(&mut random, byte, &[length]);
            for width in shortest_ber(length as u64).len()..=9 {
                let form_of = |_: &mut Random, _: usize, length: u64| match width {
                    1 => shortest_ber(length),
                    _ => long_ber(length, width - 1),
                };
                let items = contents(&mut random, &plan, &plan.source, form_of);
                let call = call.with_group(enclose(&plan.source, &items));
                let longer = u64::from(width > shortest_ber(length as u64).len());
                calls.longer_is(&format!("{byte:02X}, {length} in {width} bytes"), &call, Ok(longer));
            }
        }
    }
}

/// Groups of 0, 1, 255 and 256 items, all of them longer than needed; regrouped, none is.
pub fn counts(calls: &mut Calls, seed: u64) {
    let mut random = Random::new(seed ^ 0x74);
    for (byte, ..) in SORTS {
        for count in [0, 1, 255, 256] {
            let (plan, call) = planned(&mut random, byte, &vec![1; count]);
            let items = contents(&mut random, &plan, &plan.source, |_, n, length| long_ber(length, 1 + n % 8));
            let call = call.with_group(enclose(&plan.source, &items));
            let longer = if lengths_of(byte) == Some(Form::Ber) { count as u64 } else { 0 };
            calls.longer_is(&format!("{byte:02X}, {count} items"), &call, Ok(longer));
            let shortest = wire::group(&mut random, &plan, &plan.source, false);
            let written = calls.regroup(&call, shortest.len()).ok();
            calls.tally.equal(written, Some(shortest), || format!("{byte:02X}, {count} items in shortest form"));
        }
    }
}

/// Elements of a defined-length pack have no length of their own, and those inside their values are not counted.
pub fn defined_packs(calls: &mut Calls, _seed: u64) {
    for value in ["81 01", "84 00000001 AB", "07 81 01 AB", &format!("{ITEM} 01 AB"), &format!("{ITEM} 84 00000001 AB")]
    {
        let length = hex::bytes(value).len();
        for count in [1, 2, 5] {
            let packs = record(length as u32, ITEM).repeat(count);
            for outer in [shortest_ber, longer_ber] {
                let outer = hex::text(&outer((count * length) as u64));
                let group = format!("{PACK_05} {outer} {}", value.repeat(count));
                calls.longer_is("a defined-length pack", &call("-", &packs, "-", &group), Ok(0));
            }
        }
    }
}
