//! Numbers (01, "Lengths", and the BER words of "Kinds"): the second implementation, written from the text of 01, and
//! whether a BER length was sent in more bytes than needed (02, point 7).
use crate::fault::{planted, Fault};

#[derive(Clone, Copy, PartialEq, Eq, Debug)]
pub enum Form {
    Ber,
    Word,
    One,
    Two,
    Four,
}

#[derive(Clone, Copy, PartialEq, Eq, Debug)]
pub enum Read {
    /// The value, the bytes that it occupied, and whether it is a BER length for which fewer would do.
    Value {
        value: u64,
        width: usize,
        longer: bool,
    },
    Missing,
    Malformed,
}

#[derive(Clone, Copy, PartialEq, Eq, Debug)]
pub enum Refused {
    TooLarge,
    NoRoom,
}

impl Form {
    /// The form of an entry's parameter.
    pub fn from_number(number: u64) -> Form {
        match number {
            0 => Form::Ber,
            1 => Form::Word,
            2 => Form::One,
            3 => Form::Two,
            _ => Form::Four,
        }
    }

    /// The largest value that the form holds: 64, 28, 8, 16 or 32 bits, all set.
    pub fn largest(self) -> u64 {
        let bits = match self {
            Form::Ber => 64,
            Form::Word => 28,
            Form::One => 8,
            Form::Two => 16,
            Form::Four => 32,
        };
        (u64::MAX >> (64 - bits)) - u64::from(planted(Fault::LargestIsOneLess))
    }

    pub fn fits(self, n: u64) -> bool {
        n <= self.largest()
    }

    /// How many bytes n takes. 01 gives no width to a number that the form does not hold: it is the form's largest.
    pub fn width(self, n: u64) -> usize {
        encode(self, n.min(self.largest())).len()
    }
}

/// The number at a position of some bytes.
pub fn read(form: Form, bytes: &[u8], at: usize) -> Read {
    let wraps = planted(Fault::PositionNearLimitWraps) && at > usize::MAX - 8;
    let at = if wraps { 0 } else { at };
    let bytes = bytes.get(at..).unwrap_or(&[]);
    match form {
        Form::Ber => read_ber(bytes),
        Form::Word => read_word(bytes),
        Form::One => read_fixed(bytes, 1),
        Form::Two => read_fixed(bytes, 2),
        Form::Four => read_fixed(bytes, 4),
    }
}

fn read_ber(bytes: &[u8]) -> Read {
    let Some((first, rest)) = bytes.split_first() else {
        return Read::Missing;
    };
    let count = match first {
        0x00..=0x7F => return ber_value(u64::from(*first), &bytes[..1]),
        0x80 if planted(Fault::Ber80IsZero) => return ber_value(0, &bytes[..1]),
        0x89 if planted(Fault::Ber89IsRead) => 9,
        0x80 | 0x89..=0xFF => return Read::Malformed,
        0x81..=0x88 => usize::from(first - 0x80),
    };
    match rest.get(..count) {
        Some(digits) if planted(Fault::BerLeadingZeroIsMalformed) && digits[0] == 0x00 => Read::Malformed,
        Some(digits) => ber_value(big_endian(digits), &bytes[..1 + count]),
        None if planted(Fault::BerCutOffIsMalformed) => Read::Malformed,
        None => Read::Missing,
    }
}

/// The value of a BER length that stands as these bytes.
fn ber_value(value: u64, form: &[u8]) -> Read {
    Read::Value { value, width: form.len(), longer: is_longer(value, form) }
}

/// Whether the form of a value has more bytes than the shortest one.
fn is_longer(value: u64, form: &[u8]) -> bool {
    let shortest = shortest_ber(value);
    match form {
        _ if planted(Fault::ShortestIsLonger) => form.len() >= shortest,
        _ if planted(Fault::LongFormIsLonger) => form.len() > 1,
        [_, digits @ ..] if planted(Fault::LongerByLeadingZero) => digits.first() == Some(&0x00),
        [0x81, 0x00..=0x7F] if planted(Fault::Longer81NotSeen) => false,
        _ => form.len() > shortest,
    }
}

/// The fewest bytes of a BER length: one up to 7F, else one and those that the value has.
fn shortest_ber(value: u64) -> usize {
    match value {
        0x00..=0x7F => 1,
        _ => 1 + (64 - value.leading_zeros() as usize).div_ceil(8),
    }
}

fn read_word(bytes: &[u8]) -> Read {
    if bytes.first() == Some(&0x80) && !planted(Fault::WordBeginningWith80IsRead) {
        return Read::Malformed;
    }
    let most = if planted(Fault::WordOfFiveBytesIsRead) { 5 } else { 4 };
    let word = &bytes[..bytes.len().min(most)];
    match word.iter().position(|byte| *byte < 0x80) {
        Some(last) => Read::Value { value: seven_bits_each(&word[..=last]), width: last + 1, longer: false },
        None if word.len() == most && !planted(Fault::WordOfFourHighBytesIsCutOff) => Read::Malformed,
        None if planted(Fault::WordCutOffIsMalformed) => Read::Malformed,
        None => Read::Missing,
    }
}

fn read_fixed(bytes: &[u8], width: usize) -> Read {
    let value = match bytes.get(..width) {
        Some(digits) if planted(Fault::FixedLeastSignificantFirst) => {
            let turned: Vec<u8> = digits.iter().rev().copied().collect();
            big_endian(&turned)
        }
        Some(digits) => big_endian(digits),
        None => return Read::Missing,
    };
    let longer = width == 4 && value < 1 << 24 && planted(Fault::FourBytesCounted);
    Read::Value { value, width, longer }
}

fn big_endian(bytes: &[u8]) -> u64 {
    bytes.iter().fold(0, |value, byte| value << 8 | u64::from(*byte))
}

fn seven_bits_each(bytes: &[u8]) -> u64 {
    bytes.iter().fold(0, |value, byte| value << 7 | u64::from(*byte & 0x7F))
}

/// The bytes of a number that the form holds: the fewest.
pub fn encode(form: Form, n: u64) -> Vec<u8> {
    let digits = n.to_be_bytes();
    match form {
        Form::Ber => encode_ber(n),
        Form::Word => encode_word(n),
        Form::One => digits[7..].to_vec(),
        Form::Two => digits[6..].to_vec(),
        Form::Four => digits[4..].to_vec(),
    }
}

fn encode_ber(n: u64) -> Vec<u8> {
    let short = if planted(Fault::BerLongFormFrom127) { 0x7E } else { 0x7F };
    if n <= short {
        return vec![n as u8];
    }
    let digits = n.to_be_bytes();
    let mut zeros = n.leading_zeros() as usize / 8;
    if planted(Fault::BerOneByteLonger) && zeros > 0 {
        zeros -= 1;
    }
    let mut bytes = vec![0x80 + (8 - zeros) as u8];
    bytes.extend_from_slice(&digits[zeros..]);
    bytes
}

fn encode_word(n: u64) -> Vec<u8> {
    let bits = 64 - n.leading_zeros() as usize;
    let mut count = bits.div_ceil(7).max(1);
    if planted(Fault::WordOneByteLonger) && count < 4 {
        count += 1;
    }
    (0..count)
        .rev()
        .map(|i| {
            let mark = if i > 0 || planted(Fault::WordLastByteMarked) { 0x80 } else { 0x00 };
            mark | (n >> (7 * i)) as u8 & 0x7F
        })
        .collect()
}

/// Writes n at a position and answers the next position. A number that the form does not hold is refused before the
/// room is looked at.
pub fn write(form: Form, out: &mut [u8], at: usize, n: u64) -> Result<usize, Refused> {
    if !form.fits(n) && !planted(Fault::TooLargeIsTruncated) {
        return Err(Refused::TooLarge);
    }
    let bytes = encode(form, n);
    let Some(end) = at.checked_add(bytes.len()).filter(|end| *end <= out.len()) else {
        if planted(Fault::NoRoomWritesWhatFits) && at < out.len() {
            let room = out.len() - at;
            out[at..].copy_from_slice(&bytes[..room]);
        }
        return Err(Refused::NoRoom);
    };
    out[at..end].copy_from_slice(&bytes);
    if planted(Fault::ByteAfterIsCleared) && end < out.len() {
        out[end] = 0x00;
    }
    Ok(end)
}
