//! Job files.
use super::bytes;
use crate::call::Call;
use crate::random::Random;

/// Four pairs of offset and length.
pub type Pairs = [(u32, u32); 4];

/// The pairs of a call, as they must be.
pub fn pairs(call: &Call) -> Pairs {
    let mut end = 32;
    [&call.tags, &call.packs, &call.target, &call.group].map(|part| {
        let length = part.len() as u32;
        end += length;
        (end - length, length)
    })
}

/// The four parts, one after the other.
pub fn rest(call: &Call) -> Vec<u8> {
    [&call.tags[..], &call.packs, &call.target, &call.group].concat()
}

/// A file of these pairs and what stands after them.
pub fn with_pairs(pairs: Pairs, rest: &[u8]) -> Vec<u8> {
    let mut file = Vec::new();
    for (offset, length) in pairs {
        file.extend_from_slice(&offset.to_be_bytes());
        file.extend_from_slice(&length.to_be_bytes());
    }
    file.extend_from_slice(rest);
    file
}

/// The job file of a call.
pub fn file(call: &Call) -> Vec<u8> {
    with_pairs(pairs(call), &rest(call))
}

/// Changes one number of the pairs, or moves the border of two parts.
pub fn damage_pairs(random: &mut Random, pairs: &mut Pairs) {
    let n = random.below(4);
    let by = random.choose(&[1, 2, 16, 20, 32, 0x100, 0x1_0000, 0x8000_0000, u32::MAX, u32::MAX - 19]);
    match random.below(6) {
        0 => pairs[n].0 = pairs[n].0.wrapping_add(by),
        1 => pairs[n].0 = pairs[n].0.wrapping_sub(by),
        2 => pairs[n].1 = pairs[n].1.wrapping_add(by),
        3 => pairs[n].1 = pairs[n].1.wrapping_sub(by),
        4 => pairs.swap(n, random.below(4)),
        _ => move_border(pairs, n.max(1), by),
    }
}

/// The part before gets longer, and the part after it shorter.
fn move_border(pairs: &mut Pairs, n: usize, by: u32) {
    pairs[n - 1].1 = pairs[n - 1].1.wrapping_add(by);
    pairs[n].0 = pairs[n].0.wrapping_add(by);
    pairs[n].1 = pairs[n].1.wrapping_sub(by);
}

/// Damages the bytes of the pairs, or those after them, or adds some, or takes some away.
pub fn damage(random: &mut Random, file: &mut Vec<u8>) {
    let (pairs, rest) = file.split_at_mut(32);
    match random.below(6) {
        0 | 1 => bytes::damage(random, pairs),
        2 | 3 => bytes::damage(random, rest),
        4 => file.truncate(random.below(file.len() + 1)),
        _ => {
            let count = 1 + random.below(3);
            file.extend(random.bytes(count));
        }
    }
}
