//! Small packs in which elements measure themselves, whole and with faults.
use super::make::{any_ber, ber, group_key, item_key, table, triplet, MEASURED};
use super::Job;
use crate::random::Random;

/// Byte 6 of the ends of a call; defined-length packs come twice as often.
const ENDS: [u8; 5] = [0x01, 0x04, 0x44, 0x05, 0x05];
/// First bytes of a length that are at a border of what BER allows.
const BORDERS: [u8; 8] = [0x00, 0x7F, 0x80, 0x81, 0x82, 0x88, 0x89, 0xFF];

/// A call with one to four elements. Most are triplets, and most records mark them as such.
pub fn any(random: &mut Random) -> Job {
    let keys: Vec<[u8; 16]> = (0..1 + random.below(4)).map(|n| item_key(&[0x01, 0x01 + n as u8])).collect();
    let values: Vec<Vec<u8>> = keys.iter().map(|_| element(random)).collect();
    let lengths: Vec<u32> = values.iter().map(|value| record_length(random, value)).collect();
    let [from, to] = [random.choose(&ENDS), random.choose(&ENDS)];
    let mut body: Vec<u8> = keys.iter().zip(&values).flat_map(|(key, value)| item(from, key, value)).collect();
    match random.below(8) {
        0 => body.truncate(body.len().saturating_sub(1 + random.below(24))),
        1 => body.push(random.byte()),
        _ => {}
    }
    let group = triplet(&group_key(from), &ber(body.len()), &body);
    Job { tags: Vec::new(), packs: table(&keys, |n| lengths[n]), target: group_key(to).to_vec(), group }
}

/// A triplet; one in four has a fault.
fn element(random: &mut Random) -> Vec<u8> {
    let length = if random.one_in(8) { 100 + random.below(200) } else { random.below(24) };
    let bytes = random.bytes(length);
    let form = if random.one_in(4) { any_ber(random, length) } else { ber(length) };
    let key = item_key(&[0x02, 0x01 + random.below(0x7F) as u8]);
    let mut value = triplet(&key, &form, &bytes);
    if random.one_in(4) {
        spoil(random, &mut value);
    }
    value
}

/// A fault in a triplet: no key, another length, bytes too few or too many, or two triplets.
fn spoil(random: &mut Random, value: &mut Vec<u8>) {
    match random.below(8) {
        0 => value[random.below(16)] ^= 0x80,
        1 => value[4..6].copy_from_slice(&[0x02, 0x06]),
        2 => value[16] = random.choose(&BORDERS),
        3 => value[16] = value[16].wrapping_add(if random.one_in(2) { 0x01 } else { 0xFF }),
        4 => drop(value.splice(16..17, [0x88; 1].into_iter().chain([0xFF; 8]))),
        5 => value.truncate(random.below(value.len())),
        6 => value.push(random.byte()),
        _ => value.extend_from_within(..),
    }
}

/// The mark, the next lower length, or the value's own.
fn record_length(random: &mut Random, value: &[u8]) -> u32 {
    match random.below(16) {
        0 => MEASURED - 1,
        1..=4 => value.len() as u32,
        _ => MEASURED,
    }
}

/// An item in a group with this byte 6.
fn item(byte: u8, key: &[u8], value: &[u8]) -> Vec<u8> {
    match byte {
        0x01 => triplet(key, &ber(value.len()), value),
        0x04 => [&ber(value.len()), value].concat(),
        0x44 => [&(value.len() as u16).to_be_bytes(), value].concat(),
        _ => value.to_vec(),
    }
}
