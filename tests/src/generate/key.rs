//! Keys that 01 takes.
use crate::groups::Key;
use crate::random::Random;

/// What every key begins with.
pub const START: [u8; 4] = [0x06, 0x0E, 0x2B, 0x34];

/// A word of up to `most` bytes that is not 00.
pub fn word(random: &mut Random, most: usize) -> Vec<u8> {
    let high = random.below(most.min(4));
    let mut bytes: Vec<u8> = (0..high).map(|_| 0x80 | random.byte()).collect();
    if bytes.first() == Some(&0x80) {
        bytes[0] = 0x81;
    }
    let last = if random.one_in(4) { 0x00 } else { random.byte() & 0x7F };
    bytes.push(if high == 0 { last.max(1) } else { last });
    bytes
}

/// Fills the bytes up to an end with words, none of them 00; a word ends there.
pub fn fill_words(random: &mut Random, key: &mut Key, from: usize, end: usize) {
    let mut at = from;
    while at < end {
        let word = word(random, end - at);
        key[at..at + word.len()].copy_from_slice(&word);
        at += word.len();
    }
}

/// A byte of bytes 5 to 8; small ones more often than others.
pub fn middle(random: &mut Random) -> u8 {
    let most = if random.one_in(2) { 0x04 } else { 0x7F };
    1 + random.below(most) as u8
}

/// A key that begins with a stem, which some key begins with: no byte, or at least 4. The label goes on after the stem.
pub fn beginning_with(random: &mut Random, stem: &[u8]) -> Key {
    let mut key = [0; 16];
    key[..4].copy_from_slice(&START);
    for byte in &mut key[4..8] {
        *byte = middle(random);
    }
    key[..stem.len()].copy_from_slice(stem);
    if key[4..6] == [0x02, 0x06] {
        key[5] = 0x07;
    }
    let from = stem.len().max(8);
    let least = if stem.len() < 8 { 8 } else { stem.len() + 1 };
    let end = least + random.below(17 - least);
    fill_words(random, &mut key, from, end);
    key
}

/// Any key.
pub fn any(random: &mut Random) -> Key {
    beginning_with(random, &[])
}

/// Another key that differs in byte 8, or in the last byte.
pub fn near(random: &mut Random, key: &Key) -> Key {
    let mut near = *key;
    if random.one_in(2) || near[15] >= 0x7F || near[14] == 0x00 {
        near[7] = if near[7] == 0x01 { 0x02 } else { 0x01 };
    } else {
        near[15] = near[15].max(1) ^ 0x02;
        near[15] = near[15].max(1);
    }
    near
}
