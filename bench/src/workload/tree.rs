//! Trees of items, and the bytes of their sets.
use super::make::{any_ber, ber, four};
use crate::random::Random;

/// An item: the number of its record in the tag table, and its value or, of a nested set, its items.
pub enum Node {
    Leaf(usize, Vec<u8>),
    Nest(usize, Vec<Node>),
}

/// How BER lengths are sent.
#[derive(Clone, Copy)]
pub enum Form {
    Shortest,
    /// Every fourth in some form.
    Any,
    /// In four bytes.
    Four,
}

/// How sets are written: by the keys of the tag table, whose tags are 0, 1, 2 and so on.
pub struct Writer<'a> {
    pub keys: &'a [[u8; 16]],
    pub form: Form,
    pub random: Random,
}

impl Writer<'_> {
    /// The items of a universal or local set with this byte 6. A nested set's kind is that of its key.
    pub fn items(&mut self, byte: u8, nodes: &[Node]) -> Vec<u8> {
        let mut bytes = Vec::new();
        for node in nodes {
            let (record, value) = match node {
                Node::Leaf(record, value) => (*record, value.clone()),
                Node::Nest(record, nodes) => (*record, self.items(self.keys[*record][5], nodes)),
            };
            bytes.extend(self.label(byte, record));
            bytes.extend(self.length(byte, value.len()));
            bytes.extend(value);
        }
        bytes
    }

    fn label(&self, byte: u8, record: usize) -> Vec<u8> {
        let [high, low] = (record as u16).to_be_bytes();
        match byte & 0x1F {
            0x01 => self.keys[record].to_vec(),
            0x03 => vec![low],
            0x0B if record < 0x80 => vec![low],
            0x0B => vec![0x80 | (record >> 7) as u8, low & 0x7F],
            0x13 => vec![high, low],
            _ => vec![0x00, 0x00, high, low],
        }
    }

    fn length(&mut self, byte: u8, length: usize) -> Vec<u8> {
        let digits = (length as u64).to_be_bytes();
        match byte >> 5 {
            0 => match self.form {
                Form::Any if self.random.one_in(4) => any_ber(&mut self.random, length),
                Form::Four => four(length),
                _ => ber(length),
            },
            1 => digits[7..].to_vec(),
            2 => digits[6..].to_vec(),
            _ => digits[4..].to_vec(),
        }
    }
}
