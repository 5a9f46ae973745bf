//! Keys (01, "Keys"): the second implementation, written from the text of 01.
use crate::fault::{planted, Fault};

/// The words of some bytes: each is bytes of 80 or more, then one below 80. The last may lack its end.
fn words(bytes: &[u8]) -> impl Iterator<Item = &[u8]> {
    bytes.split_inclusive(|byte| *byte < 0x80)
}

/// A word that a label may have: its first byte is not 80, and it has its end.
fn is_word(word: &[u8]) -> bool {
    let begins = word[0] != 0x80 || planted(Fault::WordMayBeginWith80);
    let ends = word[word.len() - 1] < 0x80 || planted(Fault::LastWordMayBeUnfinished);
    begins && ends
}

/// How many bytes stand before the first word 00.
fn label_end(bytes: &[u8]) -> usize {
    if planted(Fault::LabelEndsInsideWord) {
        return bytes.iter().take_while(|byte| **byte != 0x00).count();
    }
    if planted(Fault::ZeroWordInsideLabel) {
        return bytes.len();
    }
    words(bytes).take_while(|word| *word != [0x00]).map(<[u8]>::len).sum()
}

/// The bytes are words, and all bytes after the first word 00 are 00.
fn has_label(bytes: &[u8]) -> bool {
    let (label, rest) = bytes.split_at(label_end(bytes));
    let zeros = rest.iter().all(|byte| *byte == 0x00) || planted(Fault::BytesAfterZeroNotSeen);
    words(label).all(is_word) && zeros
}

/// Byte 5, 6, 7 or 8 lies in 01..7F.
fn in_range(byte: u8) -> bool {
    byte != 0x00 && (byte <= 0x7F || planted(Fault::ByteAbove7FInBytes5To8))
}

pub fn is_key(k: &[u8; 16]) -> bool {
    let version_00 = k[7] == 0x00 && planted(Fault::Byte8MayBe00);
    let ranged = if version_00 || planted(Fault::Byte8NotSeen) { &k[4..7] } else { &k[4..8] };
    let of_02 = k[4] == 0x02 || planted(Fault::Registry06IsReservedEverywhere);
    let excluded = of_02 && k[5] == 0x06 && !planted(Fault::Bytes02And06AreKey);
    k[..4] == [0x06, 0x0E, 0x2B, 0x34] && ranged.iter().all(|byte| in_range(*byte)) && !excluded && has_label(&k[8..])
}

/// How many bytes stand before the first word 00. 01 asks it of keys only; other bytes are counted alike.
pub fn label_length(k: &[u8; 16]) -> usize {
    8 + label_end(&k[8..])
}

/// Equal only where all sixteen bytes are.
pub fn same(a: &[u8; 16], b: &[u8; 16]) -> bool {
    if planted(Fault::EqualWithoutByte8) {
        return a[..7] == b[..7] && a[8..] == b[8..];
    }
    a == b
}
