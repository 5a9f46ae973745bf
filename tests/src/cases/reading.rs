//! Reading numbers: exhaustive where small.
use crate::compare::{Compare, FORMS, OTHER_FORMS};

/// Every input of 0, 1 and 2 bytes, from each position of it.
pub fn short_inputs(compare: &mut Compare, _seed: u64) {
    for form in FORMS {
        compare.read(form, &[], 0);
        for byte in 0..=0xFF {
            for at in 0..=1 {
                compare.read(form, &[byte], at);
            }
        }
        for pair in 0..=0xFFFF_u16 {
            for at in 0..=2 {
                compare.read(form, &pair.to_be_bytes(), at);
            }
        }
    }
}

/// Every input of 3, 4 and 5 bytes out of twelve values at which a rule changes.
pub fn boundary_inputs(compare: &mut Compare, _seed: u64) {
    const BYTES: [u8; 12] = [0x00, 0x01, 0x7F, 0x80, 0x81, 0x82, 0x83, 0x84, 0x88, 0x89, 0xFE, 0xFF];
    for count in 3..=5_u32 {
        for number in 0..BYTES.len().pow(count) {
            let mut rest = number;
            let mut bytes = [0; 5];
            for byte in &mut bytes[..count as usize] {
                *byte = BYTES[rest % BYTES.len()];
                rest /= BYTES.len();
            }
            for form in FORMS {
                compare.read(form, &bytes[..count as usize], 0);
            }
        }
    }
}

/// Each first byte, with 0 to 12 bytes after it, of several patterns.
pub fn first_bytes(compare: &mut Compare, _seed: u64) {
    let patterns: [[u8; 12]; 5] = [
        [0x00; 12],
        [0x80; 12],
        [0xFF; 12],
        [0, 0, 0, 0, 0, 0, 0, 5, 0, 0, 0, 0],
        [0x81, 0x92, 0xA3, 0x34, 0x45, 0x56, 0x67, 0x78, 0x89, 0x9A, 0xAB, 0xBC],
    ];
    for form in FORMS {
        for first in 0..=0xFF {
            for pattern in patterns {
                for count in 0..=12 {
                    let mut bytes = vec![first];
                    bytes.extend_from_slice(&pattern[..count]);
                    compare.read(form, &bytes, 0);
                }
            }
        }
    }
}

/// The positions 0 to the slice's end and past it, to the largest: also those where a sum with a width would wrap.
pub fn positions(compare: &mut Compare, _seed: u64) {
    let samples: [&[u8]; 6] = [
        &[0x05; 12],
        &[0x81; 12],
        &[0x83, 0x00, 0x00, 0x05, 0x82, 0x01, 0x00, 0x7F],
        &[0x88, 1, 2, 3, 4, 5, 6, 7, 8],
        &[0xFF, 0xFF, 0xFF, 0x7F],
        &[],
    ];
    for form in FORMS {
        for sample in samples {
            for at in 0..=sample.len() + 20 {
                compare.read(form, sample, at);
            }
            for back in 0..=40 {
                compare.read(form, sample, usize::MAX - back);
                compare.read(form, sample, (usize::MAX >> 1) + 20 - back);
                compare.read(form, sample, (1 << 32) + 20 - back);
            }
        }
    }
}

/// Slices of 0 to 5 elements to answer in, for a value, a missing and a malformed number.
pub fn answers(compare: &mut Compare, _seed: u64) {
    let samples: [&[u8]; 7] =
        [&[], &[0x05], &[0x80], &[0x81], &[0x81, 0x05], &[0xFF; 9], &[0x88, 1, 2, 3, 4, 5, 6, 7, 8]];
    let elements = [u64::MAX, 0, 1, 0x0102_0304_0506_0708, 0x8000_0000_0000_0000];
    for form in FORMS {
        for sample in samples {
            for at in [0, 1, usize::MAX] {
                for count in 0..=elements.len() {
                    compare.read_into(form, sample, at, &elements[..count]);
                }
            }
        }
    }
}

pub fn form_numbers(compare: &mut Compare, _seed: u64) {
    for form in OTHER_FORMS {
        for count in 0..=6 {
            compare.read(form, &[0x01, 0x82, 0xC3, 0x84, 0x05, 0x06][..count], 0);
            compare.read(form, &[0x80, 0x80, 0x80, 0x80, 0x80, 0x80][..count], 0);
        }
    }
}
