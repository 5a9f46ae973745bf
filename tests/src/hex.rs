//! Bytes as hexadecimal digits.
use std::fmt::{self, Debug, Formatter};

/// The bytes of a text of hexadecimal digits; spaces are passed over, and `-` is no byte.
pub fn bytes(text: &str) -> Vec<u8> {
    let digits: Vec<u8> = text.bytes().filter(|byte| !matches!(byte, b' ' | b'-')).map(digit).collect();
    assert!(digits.len().is_multiple_of(2), "an odd number of digits: {text}");
    digits.chunks(2).map(|pair| pair[0] << 4 | pair[1]).collect()
}

fn digit(byte: u8) -> u8 {
    char::from(byte).to_digit(16).unwrap_or_else(|| panic!("no hexadecimal digit: {}", char::from(byte))) as u8
}

/// The digits of some bytes; no byte is `-`.
pub fn text(bytes: &[u8]) -> String {
    if bytes.is_empty() {
        return "-".to_string();
    }
    bytes.iter().map(|byte| format!("{byte:02X}")).collect()
}

/// Bytes that are printed as hexadecimal digits.
#[derive(Clone, PartialEq, Eq)]
pub struct Bytes(pub Vec<u8>);

impl Debug for Bytes {
    fn fmt(&self, to: &mut Formatter) -> fmt::Result {
        to.write_str(&text(&self.0))
    }
}
