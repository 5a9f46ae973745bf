//! Writing numbers, their widths and fits.
use crate::compare::{Compare, FORMS, OTHER_FORMS};
use crate::numbers::Form;

/// Numbers at which a width changes.
const EDGES: [u64; 19] = [
    127, 128, 255, 256, 16_383, 16_384, 65_535, 65_536, 2_097_151, 2_097_152, 268_435_455, 268_435_456, 0x0100_0000,
    0x1_0000_0000, 0x0100_0000_0000, 0x1_0000_0000_0000, 0x0100_0000_0000_0000, 0x8000_0000_0000_0000,
    0xFFFF_FFFF_FFFF_FFFF,
];

/// A number in all that is asked of it: measured, written and read again, written with room over, just enough room and
/// one byte too few.
fn whole(compare: &mut Compare, form: u64, n: u64) {
    compare.measure(form, n);
    compare.round_trip(form, n);
    let width = Form::from_number(form).width(n);
    for (count, at) in [(width, 0), (width + 2, 2), (width + 3, 0), (width + 5, 2), (width - 1, 0), (width + 1, 2)] {
        compare.write(form, &pattern(count), at, n);
    }
}

/// Bytes that differ from their neighbours.
fn pattern(count: usize) -> Vec<u8> {
    (0..count).map(|i| 0x33 ^ (i as u8).wrapping_mul(0x1D)).collect()
}

pub fn small_numbers(compare: &mut Compare, _seed: u64) {
    for form in FORMS {
        for n in 0..=70_000 {
            whole(compare, form, n);
        }
    }
}

/// The numbers within 300 of each edge, and within 2 of each power of two.
pub fn edge_numbers(compare: &mut Compare, _seed: u64) {
    for form in FORMS {
        for edge in EDGES {
            for n in edge.saturating_sub(300)..=edge.saturating_add(300) {
                whole(compare, form, n);
            }
        }
        for bit in 0..64 {
            let power = 1_u64 << bit;
            for n in power.saturating_sub(2)..=power + 2 {
                whole(compare, form, n);
            }
        }
    }
}

/// Slices of 0 to 14 bytes, all positions in them, and positions past them up to the largest.
pub fn room(compare: &mut Compare, _seed: u64) {
    for form in FORMS {
        for n in EDGES {
            for count in 0..=14 {
                let out = pattern(count);
                for at in 0..=count + 12 {
                    compare.write(form, &out, at, n);
                }
                for back in 0..=20 {
                    compare.write(form, &out, usize::MAX - back, n);
                    compare.write(form, &out, (usize::MAX >> 1) + 10 - back, n);
                }
            }
        }
    }
}

pub fn form_numbers(compare: &mut Compare, _seed: u64) {
    for form in OTHER_FORMS {
        for n in [0, 1, 127, 128, 255, 256, 65_536, 268_435_456, 0xFFFF_FFFF, 1 << 32, u64::MAX] {
            whole(compare, form, n);
        }
    }
}
