//! How many bytes a BER length occupied, and whether fewer would do (02, point 7).
use crate::compare::Compare;
use crate::generate::wire::{long_ber, shortest_ber};
use crate::guard::Side;
use crate::hex;
use crate::probe::Left;
use crate::random::Random;

/// How many random inputs are read.
const RANDOM: usize = 60_000;

/// Values at which the shortest form gets wider, and some between.
const VALUES: [u64; 26] = [
    0,
    1,
    5,
    0x7E,
    0x7F,
    0x80,
    0x81,
    0xFF,
    0x100,
    0x101,
    0x7FFF,
    0xFFFF,
    0x1_0000,
    0xFF_FFFF,
    0x100_0000,
    0xFFFF_FFFF,
    0x1_0000_0000,
    0xFF_FFFF_FFFF,
    0x100_0000_0000,
    0xFFFF_FFFF_FFFF,
    0x1_0000_0000_0000,
    0xFF_FFFF_FFFF_FFFF,
    0x100_0000_0000_0000,
    0x7FFF_FFFF_FFFF_FFFF,
    0x8000_0000_0000_0000,
    u64::MAX,
];

/// All the bytes, at both sides: this code, and these elements where [7, 7, 7] stood.
fn answers(compare: &mut Compare, bytes: &[u8], code: u64, told: [u64; 3]) {
    for side in Side::BOTH {
        let got = compare.probe.read_ber(side, bytes, 0, &[7, 7, 7]);
        let expected = Left { answer: code, items: told.to_vec(), rest_unaltered: true };
        compare.equal(got, expected, || format!("read_ber {side:?} {bytes:02X?}"));
    }
    compare.read_ber(bytes, 0, &[7, 7, 7]);
}

/// Forms with their values, widths and whether they are longer than needed, written out.
pub fn examples(compare: &mut Compare, _seed: u64) {
    for (digits, value, longer) in [
        ("00", 0, 0),
        ("7F", 127, 0),
        ("81 00", 0, 1),
        ("81 01", 1, 1),
        ("81 7F", 127, 1),
        ("81 80", 128, 0),
        ("81 FF", 255, 0),
        ("82 00 7F", 127, 1),
        ("82 00 FF", 255, 1),
        ("82 01 00", 256, 0),
        ("83 00 00 05", 5, 1),
        ("83 00 FF FF", 65_535, 1),
        ("83 01 00 00", 65_536, 0),
        ("84 00 00 00 05", 5, 1),
        ("84 01 00 00 00", 0x0100_0000, 0),
        ("88 00 00 00 00 00 00 00 05", 5, 1),
        ("88 00 FF FF FF FF FF FF FF", 0x00FF_FFFF_FFFF_FFFF, 1),
        ("88 01 00 00 00 00 00 00 00", 0x0100_0000_0000_0000, 0),
        ("88 FF FF FF FF FF FF FF FF", u64::MAX, 0),
    ] {
        let bytes = hex::bytes(digits);
        answers(compare, &bytes, 0, [value, bytes.len() as u64, longer]);
    }
    for digits in ["80", "80 00", "89", "89 00 00 00 00 00 00 00 00 05", "FF", "FF FF"] {
        answers(compare, &hex::bytes(digits), 2, [7, 7, 7]);
    }
    for digits in ["-", "81", "82 00", "84 00 00 00", "88 00 00 00 00 00 00 00"] {
        answers(compare, &hex::bytes(digits), 1, [7, 7, 7]);
    }
}

/// Each value in every width that holds it, with bytes before and after it, and cut off at every byte.
pub fn widths(compare: &mut Compare, _seed: u64) {
    for value in VALUES {
        let shortest = shortest_ber(value);
        told(compare, value, &shortest, 0);
        for count in 1..=8 {
            let form = long_ber(value, count);
            if form.len() > shortest.len() {
                told(compare, value, &form, 1);
            }
        }
    }
}

/// A form of this value: 1 where it is longer than needed.
fn told(compare: &mut Compare, value: u64, form: &[u8], longer: u64) {
    answers(compare, form, 0, [value, form.len() as u64, longer]);
    for end in 0..form.len() {
        answers(compare, &form[..end], 1, [7, 7, 7]);
    }
    let around = [&[0x81][..], form, &[0x00, 0x80, 0xFF]].concat();
    for at in [0, 1, 2, around.len() - 1, around.len(), usize::MAX] {
        compare.read_ber(&around, at, &[u64::MAX, 0, 2, 3]);
    }
}

/// Slices of 0 to 5 elements to answer in: fewer than three are refused before all else.
pub fn elements(compare: &mut Compare, _seed: u64) {
    let elements = [u64::MAX, 0, 0x0102_0304_0506_0708, 1, 0x8000_0000_0000_0000];
    for digits in ["-", "05", "81 05", "81 80", "84 00 00 00 05", "82 00", "80", "89 01 01 01 01 01 01 01 01 01"] {
        let bytes = hex::bytes(digits);
        for count in 0..=elements.len() {
            for at in [0, 1, bytes.len(), usize::MAX] {
                compare.read_ber(&bytes, at, &elements[..count]);
            }
            if count < 3 {
                let got = compare.probe.read_ber(Side::End, &bytes, 0, &elements[..count]);
                let expected = Left { answer: 3, items: elements[..count].to_vec(), rest_unaltered: true };
                compare.equal(got, expected, || format!("{count} elements for {digits}"));
            }
        }
    }
}

/// Values of any number of bits in any width that holds them; bytes before and after, at times cut off; any bytes.
pub fn random(compare: &mut Compare, seed: u64) {
    let mut random = Random::new(seed ^ 0x07);
    for turn in 0..RANDOM {
        let before = random.below(4);
        let value = random.number();
        let least = shortest_ber(value).len().max(2) - 1;
        let form = long_ber(value, least + random.below(9 - least));
        let after = random.below(4);
        let mut bytes = [random.bytes(before), form, random.bytes(after)].concat();
        match turn % 8 {
            0 => bytes.truncate(before + random.below(bytes.len() - before + 1)),
            1 => bytes = random.bytes(before + 9),
            _ => (),
        }
        let elements = random.bytes(3 + turn % 2);
        compare.read_ber(&bytes, before, &elements.into_iter().map(u64::from).collect::<Vec<u64>>());
    }
}
