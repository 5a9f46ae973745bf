//! Numbers among the bytes: lengths and tags in their layouts.

#[derive(Clone, Copy)]
pub enum Layout {
    Ber,
    Word,
    One,
    Two,
    Four,
}

impl Layout {
    /// The number at a position and the position after it; nothing if it is cut off or malformed.
    #[inline(always)]
    pub fn read(self, bytes: &[u8], at: usize) -> Option<(u64, usize)> {
        match self {
            Layout::Ber => read_ber(bytes, at),
            Layout::Word => read_word(bytes, at),
            Layout::One => bytes.get(at).map(|byte| (u64::from(*byte), at + 1)),
            Layout::Two => {
                bytes.get(at..)?.first_chunk().map(|digits| (u64::from(u16::from_be_bytes(*digits)), at + 2))
            }
            Layout::Four => {
                bytes.get(at..)?.first_chunk().map(|digits| (u64::from(u32::from_be_bytes(*digits)), at + 4))
            }
        }
    }

    /// Whether bytes that no tag is read from end before a tag does; otherwise the tag is malformed.
    pub fn cuts_off(self, rest: &[u8]) -> bool {
        match self {
            Layout::Word => rest.len() < 4 && !rest.starts_with(&[0x80]),
            _ => true,
        }
    }

    /// Whether the layout holds n.
    #[inline(always)]
    pub fn fits(self, n: u32) -> bool {
        match self {
            Layout::Ber | Layout::Four => true,
            Layout::Word => n <= 0x0FFF_FFFF,
            Layout::One => n <= 0xFF,
            Layout::Two => n <= 0xFFFF,
        }
    }

    /// The fewest bytes that n takes.
    #[inline(always)]
    pub fn width(self, n: u32) -> usize {
        match self {
            Layout::Ber if n < 0x80 => 1,
            Layout::Ber => 5 - n.leading_zeros() as usize / 8,
            Layout::Word => (38 - (n | 1).leading_zeros() as usize) / 7,
            Layout::One => 1,
            Layout::Two => 2,
            Layout::Four => 4,
        }
    }

    /// Writes n at a position; answers the position after it.
    #[inline(always)]
    pub fn write(self, n: u32, out: &mut [u8], at: usize) -> usize {
        match self {
            Layout::Ber => write_ber(n, out, at),
            Layout::Word => write_word(n, out, at),
            Layout::One => put(out, at, &[n as u8]),
            Layout::Two => put(out, at, &(n as u16).to_be_bytes()),
            Layout::Four => put(out, at, &n.to_be_bytes()),
        }
    }
}

/// Writes bytes at a position; answers the position after them.
#[inline(always)]
pub fn put(out: &mut [u8], at: usize, bytes: &[u8]) -> usize {
    let end = at + bytes.len();
    out[at..end].copy_from_slice(bytes);
    end
}

#[inline(always)]
fn read_ber(bytes: &[u8], at: usize) -> Option<(u64, usize)> {
    let first = *bytes.get(at)?;
    if first < 0x80 {
        return Some((u64::from(first), at + 1));
    }
    let k = usize::from(first & 0x7F);
    if !(1..=8).contains(&k) {
        return None;
    }
    let digits = bytes.get(at + 1..at + 1 + k)?;
    let value = match *digits {
        [a] => u64::from(a),
        [a, b] => u64::from(u16::from_be_bytes([a, b])),
        _ => digits.iter().fold(0, |value, digit| value << 8 | u64::from(*digit)),
    };
    Some((value, at + 1 + k))
}

#[inline(always)]
fn read_word(bytes: &[u8], at: usize) -> Option<(u64, usize)> {
    let first = *bytes.get(at)?;
    if first < 0x80 {
        return Some((u64::from(first), at + 1));
    }
    if first == 0x80 {
        return None;
    }
    let mut value = u64::from(first & 0x7F);
    for next in at + 1..at + 4 {
        let byte = *bytes.get(next)?;
        value = value << 7 | u64::from(byte & 0x7F);
        if byte < 0x80 {
            return Some((value, next + 1));
        }
    }
    None
}

#[inline(always)]
fn write_ber(n: u32, out: &mut [u8], at: usize) -> usize {
    let [a, b, c, d] = n.to_be_bytes();
    match Layout::Ber.width(n) {
        1 => put(out, at, &[d]),
        2 => put(out, at, &[0x81, d]),
        3 => put(out, at, &[0x82, c, d]),
        4 => put(out, at, &[0x83, b, c, d]),
        _ => put(out, at, &[0x84, a, b, c, d]),
    }
}

#[inline(always)]
fn write_word(n: u32, out: &mut [u8], at: usize) -> usize {
    let digit = |shift: u32| (n >> shift) as u8 & 0x7F;
    match Layout::Word.width(n) {
        1 => put(out, at, &[digit(0)]),
        2 => put(out, at, &[digit(7) | 0x80, digit(0)]),
        3 => put(out, at, &[digit(14) | 0x80, digit(7) | 0x80, digit(0)]),
        _ => put(out, at, &[digit(21) | 0x80, digit(14) | 0x80, digit(7) | 0x80, digit(0)]),
    }
}
