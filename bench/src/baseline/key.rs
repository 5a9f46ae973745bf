//! Keys: sixteen bytes as one number, most significant first. Tests look at eight bytes at a time.

#[derive(Clone, Copy, PartialEq, Eq, PartialOrd, Ord)]
pub struct Key(pub u128);

const TOPS: u64 = 0x8080_8080_8080_8080;
const REST: u64 = !TOPS;

/// The top bit of every byte that is 00.
fn zeros(word: u64) -> u64 {
    !(((word & REST) + REST) | word) & TOPS
}

/// The top bit of every byte that begins a word: the first one, and those after a byte below 80.
fn starts(word: u64) -> u64 {
    !(word >> 8) & TOPS
}

impl Key {
    pub fn of(bytes: &[u8; 16]) -> Key {
        Key(u128::from_be_bytes(*bytes))
    }

    /// The sixteen bytes from a position on, if so many are left.
    #[inline(always)]
    pub fn at(bytes: &[u8], at: usize) -> Option<Key> {
        bytes.get(at..)?.first_chunk().map(Key::of)
    }

    pub fn bytes(self) -> [u8; 16] {
        self.0.to_be_bytes()
    }

    pub fn high(self) -> u64 {
        (self.0 >> 64) as u64
    }

    pub fn low(self) -> u64 {
        self.0 as u64
    }

    /// Byte `n` of the key, counted from 1.
    pub fn byte(self, n: u32) -> u8 {
        (self.0 >> (8 * (16 - n))) as u8
    }

    #[inline(always)]
    pub fn is_key(self) -> bool {
        let (high, low) = (self.high(), self.low());
        let middle = high as u32;
        let begins = high & 0xFFFF_FFFF_8080_8080 == 0x060E_2B34_0000_0000;
        let no_zero = middle.wrapping_add(0x7F7F_7F7F) & 0x8080_8080 == 0x8080_8080;
        let words = if low & TOPS == 0 { plain_words(low) } else { words(low) };
        begins && no_zero && middle >> 16 != 0x0206 && words
    }

    /// How many bytes stand before the first word 00: 8 to 16.
    pub fn label_length(self) -> usize {
        let low = self.low();
        8 + (zeros(low) & starts(low)).leading_zeros() as usize / 8
    }
}

/// Whether eight bytes below 80 are all 00 after the first 00.
#[inline(always)]
fn plain_words(low: u64) -> bool {
    let filled = TOPS.checked_shl(low.trailing_zeros() & !7).unwrap_or(0);
    (low + REST) & TOPS == filled
}

/// Whether eight bytes are words, none beginning with 80, and all 00 after the first word 00.
#[inline(never)]
fn words(low: u64) -> bool {
    let starts = starts(low);
    let ends = zeros(low) & starts;
    let after = low.checked_shl(ends.leading_zeros()).unwrap_or(0);
    low & 0x80 == 0 && zeros(low ^ TOPS) & starts == 0 && after == 0
}
