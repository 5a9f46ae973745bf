//! The edges that 01 names, of keys and of lengths, held to the values that 01 gives.
use crate::compare::Compare;
use crate::guard::Side;
use crate::probe::{Left, TOO_LARGE};

const BER: u64 = 0;
const WORD: u64 = 1;
const ONE: u64 = 2;
const TWO: u64 = 3;
const FOUR: u64 = 4;

/// What 01 says of sixteen bytes: whether they are a key, and where its label ends.
struct KeyEdge {
    name: &'static str,
    bytes: [u8; 16],
    label: Option<u64>,
}

fn key_edge(name: &'static str, digits: &str, label: Option<u64>) -> KeyEdge {
    let bytes: Vec<u8> = digits.split(' ').map(|byte| u8::from_str_radix(byte, 16).unwrap()).collect();
    KeyEdge { name, bytes: bytes.try_into().unwrap(), label }
}

fn key_edges() -> Vec<KeyEdge> {
    let key = |name, digits, label| key_edge(name, digits, Some(label));
    let no_key = |name, digits| key_edge(name, digits, None);
    vec![
        key("global set", "06 0E 2B 34 02 02 05 01 01 01 01 02 03 00 00 00", 13),
        key("item: root, 05", "06 0E 2B 34 01 01 01 02 03 05 00 00 00 00 00 00", 10),
        key("item: root, 81 00 04", "06 0E 2B 34 01 01 01 02 03 81 00 04 00 00 00 00", 12),
        key("item: root, 05 to 0B", "06 0E 2B 34 01 01 01 02 03 05 06 07 08 09 0A 0B", 16),
        key("item: the root alone", "06 0E 2B 34 01 01 01 02 03 00 00 00 00 00 00 00", 9),
        key("job: item", "06 0E 2B 34 01 01 01 01 0F 02 00 00 00 00 00 00", 10),
        key("job: target", "06 0E 2B 34 02 53 01 01 0F 01 00 00 00 00 00 00", 10),
        key("job: group", "06 0E 2B 34 02 01 01 01 0F 01 00 00 00 00 00 00", 10),
        key("9 to 16 all 00", "06 0E 2B 34 01 01 01 01 00 00 00 00 00 00 00 00", 8),
        key("bytes 5 to 8 all 7F", "06 0E 2B 34 7F 7F 7F 7F 01 00 00 00 00 00 00 00", 9),
        key("an unknown key", "06 0E 2B 34 55 44 33 22 11 10 09 08 07 06 05 04", 16),
        key("a word to byte 16", "06 0E 2B 34 01 01 01 01 FF FF FF FF FF FF FF 7F", 16),
        key("81 80 00 is a word", "06 0E 2B 34 01 01 01 01 81 80 00 05 00 00 00 00", 12),
        key("06 in byte 6 alone", "06 0E 2B 34 01 06 01 01 01 00 00 00 00 00 00 00", 9),
        key("02 in byte 5 alone", "06 0E 2B 34 02 07 01 01 01 00 00 00 00 00 00 00", 9),
        no_key("02 and 06", "06 0E 2B 34 02 06 01 01 01 00 00 00 00 00 00 00"),
        no_key("byte 1", "07 0E 2B 34 01 01 01 01 01 00 00 00 00 00 00 00"),
        no_key("byte 2", "06 0F 2B 34 01 01 01 01 01 00 00 00 00 00 00 00"),
        no_key("byte 3", "06 0E 2A 34 01 01 01 01 01 00 00 00 00 00 00 00"),
        no_key("byte 4", "06 0E 2B 35 01 01 01 01 01 00 00 00 00 00 00 00"),
        no_key("byte 5 is 00", "06 0E 2B 34 00 01 01 01 01 00 00 00 00 00 00 00"),
        no_key("byte 8 is 00", "06 0E 2B 34 01 01 01 00 01 00 00 00 00 00 00 00"),
        no_key("byte 8 is 80", "06 0E 2B 34 01 01 01 80 01 00 00 00 00 00 00 00"),
        no_key("a word begins with 80", "06 0E 2B 34 01 01 01 01 80 01 00 00 00 00 00 00"),
        no_key("a second word begins with 80", "06 0E 2B 34 01 01 01 01 05 80 05 00 00 00 00 00"),
        no_key("the last word does not end", "06 0E 2B 34 01 01 01 01 01 01 01 01 01 01 01 81"),
        no_key("a byte after the word 00", "06 0E 2B 34 01 01 01 01 05 00 05 00 00 00 00 00"),
        no_key("the last byte after the word 00", "06 0E 2B 34 01 01 01 01 00 00 00 00 00 00 00 01"),
        no_key("80 after the word 00", "06 0E 2B 34 01 01 01 01 05 00 80 00 00 00 00 00"),
    ]
}

pub fn keys(compare: &mut Compare, _seed: u64) {
    for edge in key_edges() {
        let got = compare.probe.is_key(Side::End, &edge.bytes).answer;
        compare.equal(got, u64::from(edge.label.is_some()), || format!("is_key, {}", edge.name));
        if let Some(label) = edge.label {
            let got = compare.probe.label_length(Side::End, &edge.bytes).answer;
            compare.equal(got, label, || format!("label_length, {}", edge.name));
        }
        compare.key(&edge.bytes);
    }
    compare.key(&[]);
    equality(compare);
}

/// Keys are equal only where all sixteen bytes are, byte 8 too.
fn equality(compare: &mut Compare) {
    let key = key_edges()[0].bytes;
    let mut other = key;
    other[7] ^= 0x02;
    let cases: [(&[u8], u64); 3] = [(&key, 1), (&other, 0), (&key[..15], 2)];
    for (bytes, expected) in cases {
        let got = compare.probe.same(Side::End, &key, bytes).answer;
        compare.equal(got, expected, || format!("edge: same {key:02X?} {bytes:02X?}"));
        compare.same(&key, bytes);
    }
}

/// The bytes of a number, both ways: written in just enough room, and read again.
fn written(compare: &mut Compare, form: u64, n: u64, bytes: &[u8]) {
    let width = bytes.len() as u64;
    let got = compare.probe.write(Side::End, form, &vec![0x55; bytes.len()], 0, n);
    let expected = Left { answer: width, items: bytes.to_vec(), rest_unaltered: true };
    compare.equal(got, expected, || format!("edge: write form {form} {n}"));
    let got = compare.probe.width(form, n);
    compare.equal(got, width, || format!("edge: width form {form} {n}"));
    value(compare, form, bytes, n);
    compare.write(form, &vec![0x55; bytes.len()], 0, n);
}

fn value(compare: &mut Compare, form: u64, bytes: &[u8], n: u64) {
    read(compare, form, bytes, 0, [n, bytes.len() as u64]);
}

fn missing(compare: &mut Compare, form: u64, bytes: &[u8]) {
    read(compare, form, bytes, 1, [7, 7]);
}

fn malformed(compare: &mut Compare, form: u64, bytes: &[u8]) {
    read(compare, form, bytes, 2, [7, 7]);
}

/// A read of all the bytes, which answers this code and leaves these elements where [7, 7] stood.
fn read(compare: &mut Compare, form: u64, bytes: &[u8], answer: u64, items: [u64; 2]) {
    let got = compare.probe.read(Side::End, form, bytes, 0, &[7, 7]);
    let expected = Left { answer, items: items.to_vec(), rest_unaltered: true };
    compare.equal(got, expected, || format!("edge: read form {form} {bytes:02X?}"));
    compare.read(form, bytes, 0);
}

/// A number that the form does not hold: nothing is written.
fn too_large(compare: &mut Compare, form: u64, n: u64) {
    let got = compare.probe.write(Side::End, form, &[0x55; 12], 0, n);
    let expected = Left { answer: TOO_LARGE, items: vec![0x55; 12], rest_unaltered: true };
    compare.equal(got, expected, || format!("edge: write form {form} {n}"));
    let got = compare.probe.fits(form, n);
    compare.equal(got, 0, || format!("edge: fits form {form} {n}"));
    compare.write(form, &[0x55; 12], 0, n);
}

pub fn lengths(compare: &mut Compare, _seed: u64) {
    written(compare, BER, 0, &[0x00]);
    written(compare, BER, 127, &[0x7F]);
    written(compare, BER, 128, &[0x81, 0x80]);
    written(compare, BER, 255, &[0x81, 0xFF]);
    written(compare, BER, 256, &[0x82, 0x01, 0x00]);
    written(compare, BER, 65_535, &[0x82, 0xFF, 0xFF]);
    written(compare, BER, 65_536, &[0x83, 0x01, 0x00, 0x00]);
    written(compare, BER, u64::MAX, &[0x88, 0xFF, 0xFF, 0xFF, 0xFF, 0xFF, 0xFF, 0xFF, 0xFF]);
    value(compare, BER, &[0x83, 0x00, 0x00, 0x05], 5);
    value(compare, BER, &[0x81, 0x00], 0);
    value(compare, BER, &[0x88, 0x00, 0x00, 0x00, 0x00, 0x00, 0x00, 0x00, 0x05], 5);
    malformed(compare, BER, &[0x80]);
    malformed(compare, BER, &[0x80, 0x00, 0x00]);
    malformed(compare, BER, &[0x89]);
    malformed(compare, BER, &[0x89, 0, 0, 0, 0, 0, 0, 0, 0, 5, 5]);
    malformed(compare, BER, &[0xFF; 20]);
    missing(compare, BER, &[]);
    missing(compare, BER, &[0x81]);
    missing(compare, BER, &[0x83, 0x00, 0x00]);
    missing(compare, BER, &[0x88, 0, 0, 0, 0, 0, 0, 5]);
    written(compare, ONE, 255, &[0xFF]);
    written(compare, TWO, 258, &[0x01, 0x02]);
    written(compare, FOUR, 0x0102_0304, &[0x01, 0x02, 0x03, 0x04]);
    missing(compare, ONE, &[]);
    missing(compare, TWO, &[0xFF]);
    missing(compare, FOUR, &[0xFF, 0xFF, 0xFF]);
}

pub fn words(compare: &mut Compare, _seed: u64) {
    written(compare, WORD, 0, &[0x00]);
    written(compare, WORD, 127, &[0x7F]);
    written(compare, WORD, 128, &[0x81, 0x00]);
    written(compare, WORD, 16_383, &[0xFF, 0x7F]);
    written(compare, WORD, 16_384, &[0x81, 0x80, 0x00]);
    written(compare, WORD, 2_097_151, &[0xFF, 0xFF, 0x7F]);
    written(compare, WORD, 2_097_152, &[0x81, 0x80, 0x80, 0x00]);
    written(compare, WORD, 268_435_455, &[0xFF, 0xFF, 0xFF, 0x7F]);
    too_large(compare, WORD, 268_435_456);
    malformed(compare, WORD, &[0x80]);
    malformed(compare, WORD, &[0x80, 0x05]);
    malformed(compare, WORD, &[0xFF, 0xFF, 0xFF, 0xFF]);
    malformed(compare, WORD, &[0x81, 0x80, 0x80, 0x80, 0x00]);
    missing(compare, WORD, &[]);
    missing(compare, WORD, &[0x81]);
    missing(compare, WORD, &[0xFF, 0xFF, 0xFF]);
}

pub fn largest(compare: &mut Compare, _seed: u64) {
    too_large(compare, ONE, 256);
    too_large(compare, TWO, 65_536);
    too_large(compare, FOUR, 4_294_967_296);
    for (form, expected) in [(BER, u64::MAX), (WORD, 268_435_455), (ONE, 255), (TWO, 65_535), (FOUR, 4_294_967_295)] {
        let got = compare.probe.largest(form);
        compare.equal(got, expected, || format!("edge: largest form {form}"));
        let got = compare.probe.fits(form, expected);
        compare.equal(got, 1, || format!("edge: fits form {form} {expected}"));
        compare.measure(form, expected);
    }
}
