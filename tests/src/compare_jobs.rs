//! Compares what the program prints with the second implementation.
use crate::batch::Comparison;
use crate::call::Call;
use crate::generate::job;
use crate::groups::job::printed;
use crate::groups::MOST_BYTES;
use crate::hex;
use crate::program::{Program, Ran};
use crate::seen::NUMBERS;
use crate::tally::Tally;

/// What the program printed, how often.
#[derive(Default)]
pub struct Printed {
    pub accepted: u64,
    /// By the refusal's number.
    pub refused: [u64; NUMBERS],
    /// The bytes of the longest text.
    pub longest: usize,
}

impl Printed {
    fn note(&mut self, output: &[u8]) {
        self.longest = self.longest.max(output.len());
        if output.starts_with(b"OK ") {
            self.accepted += 1;
        }
        if let Some(count) = refusal(output).and_then(|number| self.refused.get_mut(number)) {
            *count += 1;
        }
    }
}

/// The number of a refusal's line.
fn refusal(output: &[u8]) -> Option<usize> {
    let line = output.strip_prefix(b"REFUSED ")?;
    let number = line.split(|byte| !byte.is_ascii_digit()).next()?;
    std::str::from_utf8(number).ok()?.parse().ok()
}

pub struct Jobs {
    pub program: Program,
    pub tally: Tally,
    pub printed: Printed,
}

impl Comparison for Jobs {
    fn tally(&mut self) -> &mut Tally {
        &mut self.tally
    }
}

impl Jobs {
    /// A quiet comparison prints no mismatch.
    pub fn new(program: Program, quiet: bool) -> Jobs {
        Jobs { program, tally: Tally::new(quiet), printed: Printed::default() }
    }

    /// The program prints for this file what the second implementation does.
    pub fn file(&mut self, file: &[u8]) {
        let got = self.program.answer(file);
        self.printed.note(&got.output);
        self.tally.equal(&got, &Ran::well(&printed(file)), || shown(file));
    }

    /// The same for a call's job file, if that is not too long. Answers whether it is not.
    pub fn call(&mut self, call: &Call) -> bool {
        let file = job::file(call);
        let fits = file.len() <= MOST_BYTES;
        if fits {
            self.file(&file);
        }
        fits
    }

    /// The program prints this text, and so does the second implementation.
    pub fn prints(&mut self, name: &str, file: &[u8], text: &str) {
        let got = self.program.answer(file);
        self.tally.equal(&got, &Ran::well(text), || format!("{name}: {}", shown(file)));
        self.file(file);
    }
}

/// A job file as hexadecimal digits.
fn shown(file: &[u8]) -> String {
    format!("job file of {} bytes: {}", file.len(), hex::text(file))
}
