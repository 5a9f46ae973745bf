//! Deep calls of which the batches say the answer.
use crate::call::Call;
use crate::compare_calls::{filled, UNSET};
use crate::compare_deep::{count_of, Deep};
use crate::fault;
use crate::groups::deep::{written, Record};
use crate::guard::Side;
use crate::hex::Bytes;
use crate::listed::Listed;
use crate::literal::{coded, longer_told, Refused};
use crate::probe_deep::Written;

/// The bytes that a call writes, whatever the room, where it is accepted.
pub fn output_of(call: &Call) -> Option<Vec<u8>> {
    fault::without(|| written(&call.tags, &call.group, usize::MAX).ok())
}

impl Deep {
    /// The answer is this output, just as long as the slice.
    pub fn writes(&mut self, name: &str, call: &Call, output: &[u8]) {
        let expected = Written { answer: output.len() as u64, output: Bytes(output.to_vec()), rest_unaltered: true };
        let got = self.probe.write(Side::End, call, &filled(output.len()));
        self.tally.equal(&got, &expected, || format!("{name}: {}", call.text()));
        let _ = self.write(call, output.len());
    }

    /// The deep listing is these records, just as many as the slices hold.
    pub fn lists(&mut self, name: &str, call: &Call, records: &[Record]) {
        let count = records.len();
        let keys = Bytes(records.iter().flat_map(|record| record.0).collect());
        let numbers = records.iter().flat_map(|record| record.1).collect();
        let expected = Listed { answer: count as u64, keys, numbers, rest_unaltered: true };
        let got = self.probe.listing(Side::End, call, &filled(16 * count), &vec![7; 3 * count]);
        self.tally.equal(&got, &expected, || format!("{name}, listing: {}", call.text()));
        self.listing(call, 16 * count, 3 * count);
    }

    /// Both operations give this refusal, and leave their slices as they were.
    pub fn refused(&mut self, name: &str, call: &Call, refused: Refused) {
        self.write_refused(name, call, refused);
        let (keys, numbers) = (filled(48), vec![7; 9]);
        let got = self.probe.listing(Side::End, call, &keys, &numbers);
        let expected = Listed { answer: coded(refused), keys: Bytes(keys), numbers, rest_unaltered: true };
        self.tally.equal(&got, &expected, || format!("{name}, listing: {}", call.text()));
    }

    /// The writing gives this refusal, and leaves its slice as it was.
    pub fn write_refused(&mut self, name: &str, call: &Call, refused: Refused) {
        let room = filled(100);
        let got = self.probe.write(Side::End, call, &room);
        let expected = Written { answer: coded(refused), output: Bytes(room), rest_unaltered: true };
        self.tally.equal(&got, &expected, || format!("{name}: {}", call.text()));
        let _ = self.write(call, 100);
    }

    /// The deep listing gives this number of longer forms, or this refusal, which leaves the number.
    pub fn longer_is(&mut self, name: &str, call: &Call, expected: Result<u64, Refused>) {
        let count = count_of(call).unwrap_or(3);
        self.longer_with(name, call, [16 * count, 3 * count], expected);
    }

    /// The same with slices of this many bytes and numbers.
    pub fn longer_with(&mut self, name: &str, call: &Call, room: [usize; 2], expected: Result<u64, Refused>) {
        let (keys, numbers) = (filled(room[0]), vec![7; room[1]]);
        let title = format!("{name}: {}", call.text());
        longer_told(&mut self.tally, &title, expected, |side| {
            self.probe.listing_longer(side, call, &keys, &numbers, UNSET)
        });
        self.listing(call, room[0], room[1]);
    }

    /// The call is accepted, with just enough room.
    pub fn accepted(&mut self, name: &str, call: &Call) {
        let room = output_of(call).map_or(0, |output| output.len());
        let accepted = self.write(call, room).is_ok();
        self.tally.equal(accepted, true, || format!("{name} is accepted: {}", call.text()));
    }
}
