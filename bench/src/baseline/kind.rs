//! Kinds: what a group's key decides, and families.
use super::key::Key;
use super::number::Layout;
use super::root::Root;

#[derive(Clone, Copy)]
pub enum Kind {
    Universal,
    Global(Root, Layout),
    Local(Layout, Layout),
    Variable(Layout),
    Defined,
}

/// A group's kind: the tag layout of a local set and the root of a global set are before the length layout.
pub fn kind_of(key: Key) -> Option<Kind> {
    if !key.is_key() || key.byte(5) != 0x02 {
        return None;
    }
    let byte = key.byte(6);
    let lengths = [Layout::Ber, Layout::One, Layout::Two, Layout::Four][usize::from(byte >> 5 & 0x03)];
    match byte & 0x1F {
        0x01 if byte == 0x01 => Some(Kind::Universal),
        0x02 => Root::of_key(key).map(|root| Kind::Global(root, lengths)),
        0x03 => Some(Kind::Local(Layout::One, lengths)),
        0x0B => Some(Kind::Local(Layout::Word, lengths)),
        0x13 => Some(Kind::Local(Layout::Two, lengths)),
        0x1B => Some(Kind::Local(Layout::Four, lengths)),
        0x04 => Some(Kind::Variable(lengths)),
        0x05 if byte == 0x05 => Some(Kind::Defined),
        _ => None,
    }
}

/// Whether the keys differ at most in byte 6, or either is global.
pub fn one_family(a: Key, a_kind: Kind, b: Key, b_kind: Kind) -> bool {
    let global = |kind| matches!(kind, Kind::Global(..));
    (a.0 ^ b.0) & !(0xFF << 80) == 0 || global(a_kind) || global(b_kind)
}
