//! Keys: exhaustive where small.
use crate::compare::Compare;

/// Keys of each kind of label, and two that are nearly keys.
pub const SAMPLES: [[u8; 16]; 9] = [
    [0x06, 0x0E, 0x2B, 0x34, 0x01, 0x01, 0x01, 0x01, 0x0F, 0x02, 0, 0, 0, 0, 0, 0],
    [0x06, 0x0E, 0x2B, 0x34, 0x02, 0x53, 0x01, 0x01, 0x0F, 0x01, 0, 0, 0, 0, 0, 0],
    [0x06, 0x0E, 0x2B, 0x34, 0x02, 0x02, 0x05, 0x01, 0x01, 0x01, 0x01, 0x02, 0x03, 0, 0, 0],
    [0x06, 0x0E, 0x2B, 0x34, 0x01, 0x01, 0x01, 0x02, 0x03, 0x81, 0x00, 0x04, 0, 0, 0, 0],
    [0x06, 0x0E, 0x2B, 0x34, 0x01, 0x01, 0x01, 0x02, 0x03, 0x05, 0x06, 0x07, 0x08, 0x09, 0x0A, 0x0B],
    [0x06, 0x0E, 0x2B, 0x34, 0x01, 0x01, 0x01, 0x01, 0, 0, 0, 0, 0, 0, 0, 0],
    [0x06, 0x0E, 0x2B, 0x34, 0x7F, 0x7F, 0x7F, 0x7F, 0xFF, 0xFF, 0xFF, 0xFF, 0xFF, 0xFF, 0xFF, 0x7F],
    [0x06, 0x0E, 0x2B, 0x34, 0x02, 0x06, 0x01, 0x01, 0x01, 0, 0, 0, 0, 0, 0, 0],
    [0x06, 0x0E, 0x2B, 0x34, 0x01, 0x01, 0x01, 0x01, 0x80, 0x01, 0, 0, 0, 0, 0, 0],
];

/// Every change of one byte of the samples.
pub fn changes_of_one_byte(mut with: impl FnMut(&[u8; 16])) {
    for sample in SAMPLES {
        for place in 0..16 {
            for byte in 0..=0xFF {
                let mut key = sample;
                key[place] = byte;
                with(&key);
            }
        }
    }
}

/// Every pair of bytes 5 and 6.
pub fn pairs_5_and_6(mut with: impl FnMut(&[u8; 16])) {
    for pair in 0..=0xFFFF_u16 {
        let mut key = SAMPLES[0];
        key[4..6].copy_from_slice(&pair.to_be_bytes());
        with(&key);
    }
}

pub fn one_byte_changed(compare: &mut Compare, _seed: u64) {
    changes_of_one_byte(|key| compare.key(key));
}

pub fn bytes_5_and_6(compare: &mut Compare, _seed: u64) {
    pairs_5_and_6(|key| compare.key(key));
}

/// Every label of eight bytes out of 00, 01, 7F, 80, 81 and FF.
pub fn labels(compare: &mut Compare, _seed: u64) {
    const BYTES: [u8; 6] = [0x00, 0x01, 0x7F, 0x80, 0x81, 0xFF];
    let mut key = SAMPLES[0];
    for number in 0..BYTES.len().pow(8) {
        let mut rest = number;
        for place in &mut key[8..] {
            *place = BYTES[rest % BYTES.len()];
            rest /= BYTES.len();
        }
        compare.key(&key);
    }
}

/// Fewer than sixteen bytes, and more: only the first sixteen count.
pub fn slice_lengths(compare: &mut Compare, _seed: u64) {
    for sample in SAMPLES {
        for count in 0..=40 {
            for after in [0x00, 0x01, 0x80, 0xFF] {
                let mut bytes = sample.to_vec();
                bytes.resize(40, after);
                compare.key(&bytes[..count]);
            }
        }
    }
}

pub fn equality(compare: &mut Compare, _seed: u64) {
    for a in SAMPLES {
        for b in SAMPLES {
            compare.same(&a, &b);
        }
        for place in 0..16 {
            for byte in 0..=0xFF {
                let mut b = a;
                b[place] = byte;
                compare.same(&a, &b);
                compare.same(&b, &a);
            }
        }
        for count in 0..=20 {
            let mut b = a.to_vec();
            b.resize(20, 0x01);
            compare.same(&a, &b[..count]);
            compare.same(&b[..count], &a);
            compare.same(&b[..count], &b);
            compare.same(&b, &b[..count]);
        }
    }
}
