//! Damage to bytes.
use super::wire;
use crate::call::Call;
use crate::random::Random;

/// Bytes at which a rule changes.
pub const BOUNDARY: [u8; 12] = [0x00, 0x01, 0x02, 0x06, 0x7E, 0x7F, 0x80, 0x81, 0x88, 0x89, 0xFE, 0xFF];

/// Changes up to three bytes, or swaps two neighbours.
pub fn damage(random: &mut Random, bytes: &mut [u8]) {
    if bytes.is_empty() {
        return;
    }
    for _ in 0..random.below(4) {
        let place = random.below(bytes.len());
        bytes[place] = match random.below(3) {
            0 => random.byte(),
            1 => random.choose(&BOUNDARY),
            _ => bytes[place] ^ 1 << random.below(8),
        };
    }
    if bytes.len() > 1 && random.one_in(4) {
        let place = random.below(bytes.len() - 1);
        bytes.swap(place, place + 1);
    }
}

/// Changes some bytes, takes some out or puts some in.
pub fn damage_any(random: &mut Random, bytes: &mut Vec<u8>) {
    let place = random.below(bytes.len() + 1);
    match random.below(8) {
        0 => bytes.truncate(place),
        1 => {
            let count = random.below(4) + 1;
            bytes.drain(place..(place + count).min(bytes.len()));
        }
        2 => {
            let more = random.below(4) + 1;
            let more = random.bytes(more);
            bytes.splice(place..place, more);
        }
        3 => bytes.push(random.byte()),
        _ => damage(random, bytes),
    }
}

/// Damages the group behind its outer length, and makes that right again.
fn damage_contents(random: &mut Random, group: &mut Vec<u8>) {
    let Some(key) = group.first_chunk().copied() else {
        return;
    };
    let width = match group.get(16) {
        Some(first @ 0x81..=0x88) => 1 + usize::from(first - 0x80),
        _ => 1,
    };
    let mut contents = group.get(16 + width..).unwrap_or(&[]).to_vec();
    damage_any(random, &mut contents);
    *group = wire::enclose(&key, &contents);
}

/// Damages one of a call's inputs, most often the group.
pub fn damage_call(random: &mut Random, call: &mut Call) {
    match random.below(12) {
        0 => damage_any(random, &mut call.tags),
        1 => damage_any(random, &mut call.packs),
        2 => damage_any(random, &mut call.target),
        3..=5 => damage_any(random, &mut call.group),
        _ => damage_contents(random, &mut call.group),
    }
}
