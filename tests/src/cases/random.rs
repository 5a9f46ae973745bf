//! Random inputs, valid and damaged.
use crate::compare::{Compare, FORMS};
use crate::generate::bytes::damage;
use crate::generate::key::word;
use crate::numbers::{encode, Form};
use crate::random::Random;

const KEYS: usize = 60_000;
const READS: usize = 120_000;
const WRITES: usize = 60_000;

/// Sixteen bytes that are a key, but for 02 with 06 in bytes 5 and 6, which may come up.
fn key(random: &mut Random) -> [u8; 16] {
    let mut key = [0; 16];
    key[..4].copy_from_slice(&[0x06, 0x0E, 0x2B, 0x34]);
    for byte in &mut key[4..8] {
        *byte = 1 + random.below(0x7F) as u8;
    }
    if random.one_in(4) {
        key[4] = 0x02;
    }
    if random.one_in(16) {
        key[5] = 0x06;
    }
    let end = 8 + random.below(9);
    let mut at = 8;
    while at < end {
        let word = word(random, end - at);
        key[at..at + word.len()].copy_from_slice(&word);
        at += word.len();
    }
    key
}

pub fn keys(compare: &mut Compare, seed: u64) {
    let mut random = Random::new(seed);
    for turn in 0..KEYS {
        let valid = key(&mut random);
        let mut bytes = valid.to_vec();
        if turn % 2 == 1 {
            damage(&mut random, &mut bytes);
        }
        let after = random.below(5);
        bytes.extend(random.bytes(after));
        if random.one_in(20) {
            bytes.truncate(random.below(17));
        }
        compare.key(&bytes);
        compare.same(&valid, &bytes);
    }
}

/// A number in this form, BER sometimes with leading zero bytes.
fn number(random: &mut Random, form: u64) -> Vec<u8> {
    let meant = Form::from_number(form);
    let n = random.number() & meant.largest();
    if meant == Form::Ber && random.one_in(3) {
        let least = (64 - n.leading_zeros() as usize).div_ceil(8).max(1);
        let count = least + random.below(9 - least);
        let mut bytes = vec![0x80 + count as u8];
        bytes.extend_from_slice(&n.to_be_bytes()[8 - count..]);
        return bytes;
    }
    encode(meant, n)
}

/// A position: most often the number's, else anywhere, at times past the end or near the largest.
fn position(random: &mut Random, number_at: usize, count: usize) -> usize {
    match random.below(20) {
        0 => random.below(count + 1),
        1 => count + random.below(20),
        2 => usize::MAX - random.below(20),
        3 => random.next() as usize,
        _ => number_at,
    }
}

pub fn reading(compare: &mut Compare, seed: u64) {
    let mut random = Random::new(seed ^ 1);
    for turn in 0..READS {
        let form = FORMS[turn % FORMS.len()];
        let before = random.below(6);
        let mut bytes = random.bytes(before);
        bytes.extend(number(&mut random, form));
        if random.one_in(2) {
            let after = random.below(12);
            bytes.extend(random.bytes(after));
        }
        if random.one_in(3) {
            damage(&mut random, &mut bytes[before..]);
        }
        if random.one_in(4) {
            let cut = random.below(bytes.len() + 1);
            bytes.truncate(cut);
        }
        if random.one_in(10) {
            let count = random.below(24);
            bytes = random.bytes(count);
        }
        let at = position(&mut random, before, bytes.len());
        let elements = if random.one_in(20) { random.below(2) } else { 2 + random.below(4) };
        let answer: Vec<u64> = (0..elements).map(|_| random.next()).collect();
        compare.read_into(form, &bytes, at, &answer);
    }
}

pub fn writing(compare: &mut Compare, seed: u64) {
    let mut random = Random::new(seed ^ 2);
    for turn in 0..WRITES {
        let form = FORMS[turn % FORMS.len()];
        let mut n = random.number();
        if random.one_in(2) {
            n &= Form::from_number(form).largest();
        }
        let count = random.below(24);
        let out = random.bytes(count);
        let near_end = count.saturating_sub(random.below(11));
        let at = position(&mut random, near_end, count);
        compare.write(form, &out, at, n);
        compare.measure(form, n);
        compare.round_trip(form, n);
    }
}
