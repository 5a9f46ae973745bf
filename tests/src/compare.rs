//! Compares the entries of the key and length layer with the second implementation.
use crate::batch::Comparison;
use crate::fault::{planted, Fault};
use crate::guard::Side;
use crate::keys;
use crate::numbers::{self, Form, Read, Refused};
use crate::probe::{Answer, Left, Probe, NO_ROOM, TOO_LARGE};
use crate::tally::Tally;
use std::fmt::Debug;

/// The numbers of the forms, one of each.
pub const FORMS: [u64; 5] = [0, 1, 2, 3, 4];

/// Numbers that an entry takes for the form of four bytes; some end in the bits of 0 to 3.
pub const OTHER_FORMS: [u64; 9] = [5, 6, 255, 256, 257, 1 << 32, (1 << 32) + 1, (1 << 63) + 2, u64::MAX];

/// How often each outcome was seen, by form.
#[derive(Clone, Copy, Default)]
pub struct Outcomes {
    pub keys: u64,
    pub no_keys: u64,
    pub values: [u64; 5],
    pub missing: [u64; 5],
    pub malformed: [u64; 5],
    pub written: [u64; 5],
    pub too_large: [u64; 5],
    pub no_room: [u64; 5],
    /// BER lengths in the fewest bytes, and longer ones.
    pub shortest: u64,
    pub longer: u64,
}

pub struct Compare {
    pub probe: Probe,
    pub tally: Tally,
    pub outcomes: Outcomes,
}

impl Comparison for Compare {
    fn tally(&mut self) -> &mut Tally {
        &mut self.tally
    }
}

impl Compare {
    /// A quiet comparison prints no mismatch.
    pub fn new(quiet: bool) -> Compare {
        Compare { probe: Probe::new(), tally: Tally::new(quiet), outcomes: Outcomes::default() }
    }

    /// One comparison.
    pub fn equal<T: PartialEq + Debug>(&mut self, got: T, expected: T, inputs: impl FnOnce() -> String) {
        self.tally.equal(got, expected, inputs);
    }

    /// The key test and the label length of the first sixteen bytes.
    pub fn key(&mut self, bytes: &[u8]) {
        let key: Option<&[u8; 16]> = bytes.first_chunk();
        let test = key.map_or(2, |key| u64::from(keys::is_key(key)));
        let length = key.map_or(0, |key| keys::label_length(key) as u64);
        match test {
            0 => self.outcomes.no_keys += 1,
            1 => self.outcomes.keys += 1,
            _ => (),
        }
        for side in Side::BOTH {
            let got = self.probe.is_key(side, bytes);
            self.equal(got, unaltered(test), || format!("is_key {side:?} {bytes:02X?}"));
            let got = self.probe.label_length(side, bytes);
            self.equal(got, unaltered(length), || format!("label_length {side:?} {bytes:02X?}"));
        }
    }

    /// The equality of the first sixteen bytes of each.
    pub fn same(&mut self, a: &[u8], b: &[u8]) {
        let expected = match (a.first_chunk(), b.first_chunk()) {
            (Some(a), Some(b)) => u64::from(keys::same(a, b)),
            _ => 2,
        };
        for side in Side::BOTH {
            let got = self.probe.same(side, a, b);
            self.equal(got, unaltered(expected), || format!("same {side:?} {a:02X?} {b:02X?}"));
        }
    }

    /// A number at a position, with three elements to answer in.
    pub fn read(&mut self, form: u64, bytes: &[u8], at: usize) {
        self.read_into(form, bytes, at, &[u64::MAX, 0, 0x0123_4567_89AB_CDEF]);
    }

    /// A number at a position, with these elements to answer in.
    pub fn read_into(&mut self, form: u64, bytes: &[u8], at: usize, answer: &[u64]) {
        let found = numbers::read(Form::from_number(form), bytes, at);
        let counts = match found {
            Read::Value { .. } => &mut self.outcomes.values,
            Read::Missing => &mut self.outcomes.missing,
            Read::Malformed => &mut self.outcomes.malformed,
        };
        counts[index(form)] += 1;
        for side in Side::BOTH {
            let got = self.probe.read(side, form, bytes, at, answer);
            self.equal(got, after_read(found, 2, answer), || {
                format!("read {side:?} form {form} {bytes:02X?} at {at} into {answer:02X?}")
            });
        }
        if Form::from_number(form) == Form::Ber {
            self.read_ber(bytes, at, answer);
        }
    }

    /// A BER length at a position, with these elements to answer in.
    pub fn read_ber(&mut self, bytes: &[u8], at: usize, answer: &[u64]) {
        let found = numbers::read(Form::Ber, bytes, at);
        match found {
            Read::Value { longer: true, .. } => self.outcomes.longer += 1,
            Read::Value { longer: false, .. } => self.outcomes.shortest += 1,
            Read::Missing | Read::Malformed => (),
        }
        for side in Side::BOTH {
            let got = self.probe.read_ber(side, bytes, at, answer);
            self.equal(got, after_read(found, 3, answer), || {
                format!("read_ber {side:?} {bytes:02X?} at {at} into {answer:02X?}")
            });
        }
    }

    /// A number written at a position of a slice that holds these bytes.
    pub fn write(&mut self, form: u64, out: &[u8], at: usize, n: u64) {
        let mut items = out.to_vec();
        let (answer, counts) = match numbers::write(Form::from_number(form), &mut items, at, n) {
            Ok(end) => (end as u64, &mut self.outcomes.written),
            Err(Refused::TooLarge) => (TOO_LARGE, &mut self.outcomes.too_large),
            Err(Refused::NoRoom) => (NO_ROOM, &mut self.outcomes.no_room),
        };
        counts[index(form)] += 1;
        let expected = Left { answer, items, rest_unaltered: true };
        for side in Side::BOTH {
            let got = self.probe.write(side, form, out, at, n);
            self.equal(&got, &expected, || format!("write {side:?} form {form} {n} at {at} of {out:02X?}"));
        }
    }

    /// The width of a number, whether it fits, and the form's largest value.
    pub fn measure(&mut self, form: u64, n: u64) {
        let meant = Form::from_number(form);
        let got = self.probe.width(form, n);
        self.equal(got, meant.width(n) as u64, || format!("width form {form} {n}"));
        let got = self.probe.fits(form, n);
        self.equal(got, u64::from(meant.fits(n)), || format!("fits form {form} {n}"));
        let got = self.probe.largest(form);
        self.equal(got, meant.largest(), || format!("largest form {form}"));
    }

    /// What is written is read again, also with bytes after it: the same number, of the same width; a BER length is not
    /// longer than needed.
    pub fn round_trip(&mut self, form: u64, n: u64) {
        let out = [0xFF; 12];
        let wrote = self.probe.write(Side::End, form, &out, 0, n);
        if wrote.answer == TOO_LARGE {
            return;
        }
        let width = wrote.answer;
        let written = wrote.items.get(..width as usize).unwrap_or(&[]);
        for bytes in [written, &wrote.items] {
            let read = self.probe.read(Side::End, form, bytes, 0, &[0, 0]);
            let expected = Left { answer: 0, items: vec![n, width], rest_unaltered: true };
            self.equal(read, expected, || format!("round trip form {form} {n}, written {bytes:02X?}"));
            if Form::from_number(form) == Form::Ber {
                let read = self.probe.read_ber(Side::End, bytes, 0, &[0, 0, 7]);
                let expected = Left { answer: 0, items: vec![n, width, 0], rest_unaltered: true };
                self.equal(read, expected, || format!("the form that is written for {n}: {bytes:02X?}"));
            }
        }
    }
}

/// Where a form's outcomes are counted.
fn index(form: u64) -> usize {
    form.min(4) as usize
}

fn unaltered(answer: u64) -> Answer {
    Answer { answer, memory_unaltered: true }
}

/// What a read answers and leaves of the elements, the first of which tell value and width, and a third one whether fewer
/// bytes would do.
fn after_read(found: Read, told: usize, answer: &[u64]) -> Left<u64> {
    let mut items = answer.to_vec();
    let told = if planted(Fault::TwoElementsSuffice) { told.min(items.len().max(2)) } else { told };
    if items.len() < told {
        return Left { answer: 3, items, rest_unaltered: true };
    }
    let code = match found {
        Read::Value { value, width, longer } => {
            items[..told].copy_from_slice(&[value, width as u64, u64::from(longer)][..told]);
            0
        }
        Read::Missing => 1,
        Read::Malformed => 2,
    };
    if code != 0 && planted(Fault::AnswerClearedWithoutValue) {
        items[0] = 0;
    }
    Left { answer: code, items, rest_unaltered: true }
}
