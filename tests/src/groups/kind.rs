//! Kinds (01, "Kinds"): what a group's key says of its items.
use super::{root, Key};
use crate::keys;
use crate::numbers::Form;

/// What byte 6 says: the sort of the group, and the form of a local set's tags.
#[derive(Clone, Copy, PartialEq, Eq, Debug)]
pub enum Sort {
    Universal,
    Global,
    Local(Form),
    VariablePack,
    DefinedPack,
}

/// Every byte 6 of a group, its sort, and the form of its items' lengths where it has them.
pub const SORTS: [(u8, Sort, Option<Form>); 26] = [
    (0x01, Sort::Universal, Some(Form::Ber)),
    (0x02, Sort::Global, Some(Form::Ber)),
    (0x22, Sort::Global, Some(Form::One)),
    (0x42, Sort::Global, Some(Form::Two)),
    (0x62, Sort::Global, Some(Form::Four)),
    (0x03, Sort::Local(Form::One), Some(Form::Ber)),
    (0x0B, Sort::Local(Form::Word), Some(Form::Ber)),
    (0x13, Sort::Local(Form::Two), Some(Form::Ber)),
    (0x1B, Sort::Local(Form::Four), Some(Form::Ber)),
    (0x23, Sort::Local(Form::One), Some(Form::One)),
    (0x2B, Sort::Local(Form::Word), Some(Form::One)),
    (0x33, Sort::Local(Form::Two), Some(Form::One)),
    (0x3B, Sort::Local(Form::Four), Some(Form::One)),
    (0x43, Sort::Local(Form::One), Some(Form::Two)),
    (0x4B, Sort::Local(Form::Word), Some(Form::Two)),
    (0x53, Sort::Local(Form::Two), Some(Form::Two)),
    (0x5B, Sort::Local(Form::Four), Some(Form::Two)),
    (0x63, Sort::Local(Form::One), Some(Form::Four)),
    (0x6B, Sort::Local(Form::Word), Some(Form::Four)),
    (0x73, Sort::Local(Form::Two), Some(Form::Four)),
    (0x7B, Sort::Local(Form::Four), Some(Form::Four)),
    (0x04, Sort::VariablePack, Some(Form::Ber)),
    (0x24, Sort::VariablePack, Some(Form::One)),
    (0x44, Sort::VariablePack, Some(Form::Two)),
    (0x64, Sort::VariablePack, Some(Form::Four)),
    (0x05, Sort::DefinedPack, None),
];

/// What a group's key says.
#[derive(Clone, PartialEq, Eq, Debug)]
pub struct Group {
    pub key: Key,
    pub sort: Sort,
    pub lengths: Option<Form>,
    /// Empty where the group is not global.
    pub root: Vec<u8>,
}

impl Group {
    /// The group of sixteen bytes, if they are the key of one.
    pub fn of_key(key: &Key) -> Option<Group> {
        if !keys::is_key(key) || key[4] != 0x02 {
            return None;
        }
        let (_, sort, lengths) = SORTS.into_iter().find(|(byte, ..)| *byte == key[5])?;
        let root = if sort == Sort::Global { root::of_key(key)? } else { Vec::new() };
        Some(Group { key: *key, sort, lengths, root })
    }

    pub fn is_pack(&self) -> bool {
        matches!(self.sort, Sort::VariablePack | Sort::DefinedPack)
    }
}
