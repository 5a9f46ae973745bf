//! Labels and lengths that do not read: an item's own refusal outside, 18 inside.
use super::build::{call, chain, NO_KEY, PLACE, PLAIN, UNLISTED};
use crate::compare_deep::Deep;
use crate::generate::nested::{item, label, length, lengths, SETS};
use crate::numbers::Form;

/// A cut-off or malformed item, and its refusal's number.
type Bad = (Vec<u8>, u64);

pub fn all(deep: &mut Deep, _seed: u64) {
    for byte in SETS {
        let bad = [labels(byte), spans(byte)].concat();
        let good = item(byte, &PLAIN, &[0xAB]);
        for (item, number) in bad {
            let contents = [&good[..], &item].concat();
            deep.refused(&format!("{number} outside"), &call(byte, &contents), (number, 1));
            for holder in [0x01, 0x03, 0x2B, 0x53, 0x7B] {
                for depth in 2..=4 {
                    let sets = [&vec![holder; depth - 1][..], &[byte]].concat();
                    let name = format!("{number} at depth {depth}");
                    deep.refused(&name, &call(holder, &chain(&sets, &contents)), (18, PLACE));
                }
            }
        }
    }
}

/// Labels that are cut off, malformed or not listed.
fn labels(byte: u8) -> Vec<Bad> {
    let whole = label(byte, &PLAIN);
    let mut bad: Vec<Bad> = (1..whole.len()).map(|left| (whole[..left].to_vec(), 8)).collect();
    if byte == 0x01 {
        for (place, value) in [(0, 0x07), (4, 0x00), (5, 0x80), (7, 0x00), (8, 0x80), (15, 0x81)] {
            let mut key = PLAIN.1;
            key[place] = value;
            bad.push((item(byte, &(0, key), &[]), 19));
        }
        let mut reserved = PLAIN.1;
        reserved[4..6].copy_from_slice(&[0x02, 0x06]);
        let mut unfinished = PLAIN.1;
        unfinished[10..].copy_from_slice(&[0x03, 0x04, 0x05, 0x06, 0x07, 0x81]);
        bad.extend([reserved, unfinished, NO_KEY].map(|key| (item(byte, &(0, key), &[]), 19)));
        bad.push((NO_KEY[1..].to_vec(), 8));
    } else {
        bad.push((item(byte, &(UNLISTED, PLAIN.1), &[]), 20));
        bad.push((item(byte, &(0, PLAIN.1), &[]), 20));
        bad.push((label(byte, &(UNLISTED, PLAIN.1)), 20));
    }
    if matches!(byte, 0x0B | 0x2B | 0x4B | 0x6B) {
        bad.extend([(vec![0x81], 8), (vec![0xFF, 0xFF, 0xFF], 8), (vec![0x80], 19), (vec![0x80, 0x07], 19)]);
        bad.extend([(vec![0x81; 4], 19), (vec![0x81, 0x80, 0x80, 0x80, 0x00, 0x00], 19)]);
    }
    bad
}

/// Lengths that are missing or malformed, and values longer than what is left.
fn spans(byte: u8) -> Vec<Bad> {
    let label = label(byte, &PLAIN);
    let whole = length(byte, 3);
    let mut spans: Vec<Vec<u8>> = (0..whole.len()).map(|left| whole[..left].to_vec()).collect();
    spans.extend([whole.clone(), [&whole[..], &[0xAB, 0xAB]].concat()]);
    if lengths(byte) == Form::Ber {
        let texts: [&[u8]; 6] = [&[0x80], &[0x89], &[0xFF], &[0x81], &[0x82, 0x00], &[0x88, 0, 0, 0, 0, 0, 0, 1]];
        spans.extend(texts.map(<[u8]>::to_vec));
        spans.extend([[&[0x88][..], &[0xFF; 8]].concat(), [&[0x89][..], &[0x00; 9]].concat()]);
    } else {
        spans.push(vec![0xFF; whole.len()]);
    }
    spans.into_iter().map(|span| ([&label[..], &span].concat(), 9)).collect()
}
