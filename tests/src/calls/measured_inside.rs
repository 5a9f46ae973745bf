//! What stands inside elements that measure themselves (02, point 5): keys, lengths in every form, values; and as many
//! elements, and as long ones, as there may be.
use super::elements::{both_ways, bytes, constant, from_to, group_key, measured, plan, triplet, Element};
use super::literals::{key, ITEM, PACK_04, PACK_05, SET_01, SET_03};
use crate::compare_calls::Calls;
use crate::generate::plan::Plan;
use crate::generate::wire::{enclose, long_ber, shortest_ber, wrap};
use crate::groups::MOST_BYTES;
use crate::hex;

/// The element alone, and between others.
fn taken(calls: &mut Calls, name: &str, element: &[u8], others: &[u8]) {
    both_ways(calls, name, &plan(&[measured(element)]), others);
    let between = [constant(&[0xAB]), measured(element), measured(&triplet(2)), constant(&[])];
    both_ways(calls, name, &plan(&between), others);
}

/// Every form of a length is kept as it was sent, and none is counted as longer; a variable-length pack's own are.
pub fn forms(calls: &mut Calls, _seed: u64) {
    for length in [0, 1, 5, 127, 128, 255, 256] {
        let value = vec![0x5A; length];
        let forms = (1..=8).map(|count| long_ber(length as u64, count));
        let fit = forms.filter(|form| form.len() >= shortest_ber(length as u64).len());
        for form in fit.chain([shortest_ber(length as u64)]) {
            let element = wrap(&key(ITEM), &form, &value);
            taken(calls, &format!("length {}", hex::text(&form)), &element, &[0x01, 0x04, 0x05]);
            not_counted(calls, &element);
        }
    }
}

fn not_counted(calls: &mut Calls, element: &[u8]) {
    let plan = plan(&[measured(element), measured(element)]);
    calls.longer_is("in a defined-length pack", &from_to(&plan, 0x05, 0x01), Ok(0));
    calls.longer_is("in a variable-length pack", &from_to(&plan, 0x04, 0x01), Ok(0));
    let own = [&long_ber(element.len() as u64, 4), element, &shortest_ber(element.len() as u64), element].concat();
    let longer = from_to(&plan, 0x04, 0x01).with_group(enclose(&group_key(0x04), &own));
    calls.longer_is("a longer form of an element's own length", &longer, Ok(1));
}

/// Values of 0 to 60,000 bytes; values that are triplets, groups, or look like malformed lengths.
pub fn values(calls: &mut Calls, _seed: u64) {
    for length in [0, 1, 2, 126, 127, 128, 129, 254, 255, 256, 257, 60_000] {
        taken(calls, &format!("{length} bytes inside"), &triplet(length), &[0x01, 0x04, 0x53]);
    }
    let local = enclose(&key(SET_03), &hex::bytes("00 02 ABCD"));
    let nested = enclose(&key(SET_01), &triplet(4));
    for value in [&triplet(3), &local, &nested, &vec![0x80], &vec![0xFF; 20]] {
        taken(calls, "a value inside", &enclose(&key(ITEM), value), &[0x01, 0x04, 0x1B]);
    }
    for element in [local, nested, enclose(&key(PACK_04), &[0x01]), enclose(&key(PACK_05), &triplet(0))] {
        taken(calls, "a group as element", &element, &[0x01, 0x04, 0x1B]);
    }
}

/// Keys inside: of every sort that 01 takes, the record's own among them.
pub fn keys(calls: &mut Calls, _seed: u64) {
    for digits in [
        "060E2B34010101010F02000000000000",
        "060E2B34010101010F02010100000000",
        "060E2B3401010101 0000000000000000",
        "060E2B347F7F7F7F 7F7F7F7F7F7F7F7F",
        "060E2B3401010101 8101810081808000",
        "060E2B3401010101 FFFFFFFFFFFFFF7F",
        "060E2B3401060101 0102030405060708",
        "060E2B3402070101 0102030405060708",
        "060E2B3402050101 0D01020101020400",
        "060E2B3402020B01 0102030405060708",
        "060E2B3404010101 0D01020101010900",
    ] {
        for value in [&[][..], &[0xAB, 0xCD]] {
            taken(calls, "a key inside", &enclose(&key(digits), value), &[0x01, 0x24]);
        }
    }
}

/// 0, 1, 255 and 256 measured elements; a record more is refused with the table.
pub fn counts(calls: &mut Calls, _seed: u64) {
    let elements: Vec<Element> = (0..257).map(|n| measured(&triplet(n % 4))).collect();
    for count in [0, 1, 16, 17, 255, 256] {
        let plan = plan(&elements[..count]);
        both_ways(calls, &format!("{count} elements"), &plan, &[0x01, 0x04, 0x05]);
        let mut call = from_to(&plan, 0x05, 0x01);
        let begin = call.group.len() - plan.items.iter().map(|item| item.1.len()).sum::<usize>();
        let contents = [&call.group[begin..], &[0x00]].concat();
        call.group = enclose(&group_key(0x05), &contents);
        calls.regroup_is("a byte after all elements", &call, Err((11, count as u64)));
        if count > 0 {
            call.group = enclose(&group_key(0x05), &contents[..contents.len() - 2]);
            calls.regroup_is("a byte too few", &call, Err((9, count as u64 - 1)));
        }
    }
    let mut more = from_to(&plan(&elements), 0x05, 0x01);
    more.tags.clear();
    calls.regroup_is("257 records", &more, Err((2, 0)));
}

/// A measured element that makes the group 65,536 bytes, and one byte more.
pub fn sizes(calls: &mut Calls, _seed: u64) {
    for byte in [0x05, 0x04, 0x01, 0x7B, 0x62] {
        let length = 60_000 + MOST_BYTES - bytes(&sized(60_000), byte).len();
        let plan = sized(length);
        let call = from_to(&plan, byte, 0x05);
        calls.tally.equal(call.group.len(), MOST_BYTES, || format!("{byte:02X} of 65,536 bytes"));
        calls.regroup_is("65,536 bytes in", &call, Ok(&bytes(&plan, 0x05)));
        calls.regroup_is("65,536 bytes out", &from_to(&plan, 0x05, byte), Ok(&bytes(&plan, byte)));
        for target in [0x04, 0x01, 0x7B].into_iter().filter(|_| byte == 0x05) {
            calls.regroup_is("more than 65,536 bytes out", &from_to(&plan, 0x05, target), Err((14, 0)));
        }
        calls.regroup_is("65,537 bytes in", &from_to(&sized(length + 1), byte, 0x05), Err((4, 0)));
    }
}

/// One measured element with this many bytes inside.
fn sized(length: usize) -> Plan {
    plan(&[measured(&triplet(length))])
}
