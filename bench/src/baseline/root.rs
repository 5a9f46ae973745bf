//! The roots and tags of global sets.
use super::key::Key;
use super::number::put;

/// The most bytes of a tag.
const MOST: usize = 12;
const TOPS: u128 = 0x8080_8080_8080_8080_8080_8080_8080_8080;
const REST: u128 = !TOPS;

/// A root: its bytes, filled with 00, and how many they are: 4 to 15.
#[derive(Clone, Copy)]
pub struct Root {
    bytes: u128,
    length: usize,
}

/// The first n of sixteen bytes, n from 1 to 16; the rest 00.
fn front(bytes: u128, n: usize) -> u128 {
    bytes & (u128::MAX << (128 - 8 * n))
}

impl Root {
    /// The root of a global set's key, if c, g and c + g are within their bounds.
    pub fn of_key(key: Key) -> Option<Root> {
        let c = usize::from(key.byte(7)) - 1;
        let g = key.label_length() - 8;
        if c > 8 || g < 2 || !(4..=15).contains(&(c + g)) {
            return None;
        }
        let designator = u128::from(key.low()) << 64;
        let leading = if c == 0 { 0 } else { front(key.0, c) };
        Some(Root { bytes: leading | designator >> (8 * c), length: c + g })
    }

    /// The item key of the tag at a position, and the position after the tag.
    #[inline(always)]
    pub fn read_tag(self, bytes: &[u8], at: usize) -> Option<(Key, usize)> {
        let rest = bytes.get(at..)?;
        let seen = u128::from_be_bytes(match rest.first_chunk() {
            Some(seen) => *seen,
            None => filled(rest),
        });
        let n = before_zero(seen);
        let (n, width) = if n < MOST.min(rest.len()) {
            (n, n + 1)
        } else if rest.len() >= MOST {
            (MOST, MOST)
        } else {
            return None;
        };
        if n == 0 || self.length + n > 16 {
            return None;
        }
        let key = Key(self.bytes | front(seen, n) >> (8 * self.length));
        key.is_key().then_some((key, at + width))
    }

    /// The width of an item key's tag, if the key begins with the root and goes on after it.
    #[inline(always)]
    pub fn tag_width(self, key: Key) -> Option<usize> {
        let length = key.label_length();
        if front(key.0 ^ self.bytes, self.length) != 0 || length <= self.length {
            return None;
        }
        Some((length - self.length + 1).min(MOST))
    }

    /// Writes an item key's tag of this width. The bytes after a label are 00, and so is the one that closes a tag.
    #[inline(always)]
    pub fn write_tag(self, key: Key, width: usize, out: &mut [u8], at: usize) -> usize {
        let tag = (key.0 << (8 * self.length)).to_be_bytes();
        match out.get_mut(at..at + 16) {
            Some(room) => {
                room.copy_from_slice(&tag);
                at + width
            }
            None => put(out, at, &tag[..width]),
        }
    }
}

/// Fewer than sixteen bytes, filled with 00.
fn filled(bytes: &[u8]) -> [u8; 16] {
    let mut filled = [0; 16];
    filled[..bytes.len()].copy_from_slice(bytes);
    filled
}

/// Whether some bytes end before a tag does.
pub fn cuts_off(rest: &[u8]) -> bool {
    rest.len() < MOST && before_zero(u128::from_be_bytes(filled(rest))) >= rest.len()
}

/// How many of sixteen bytes stand before the first word 00.
#[inline(always)]
fn before_zero(bytes: u128) -> usize {
    let zeros = !(((bytes & REST) + REST) | bytes) & TOPS;
    (zeros & !(bytes >> 8)).leading_zeros() as usize / 8
}
