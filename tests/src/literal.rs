//! Calls of which 01 says the whole answer, and listings of which 02's point 7 says the number of longer forms.
use crate::call::Call;
use crate::compare_calls::{filled, Calls, UNSET};
use crate::groups::{Key, MOST_ITEMS};
use crate::guard::Side;
use crate::hex::Bytes;
use crate::host::Regrouped;
use crate::listed::{Counted, Listed};
use crate::tally::Tally;

/// A refusal's number and place.
pub type Refused = (u64, u64);

/// An item's key, and its value's offset and length.
pub type Place = (Key, u32, u32);

impl Calls {
    /// The answer is this output, just as long as the slice, or this refusal.
    pub fn regroup_is(&mut self, name: &str, call: &Call, expected: Result<&[u8], Refused>) {
        let room = filled(expected.map_or(100, <[u8]>::len));
        let (answer, output) = match expected {
            Ok(output) => (output.len() as u64, output.to_vec()),
            Err(refused) => (coded(refused), room.clone()),
        };
        let expected = Regrouped { answer, output: Bytes(output), rest_unaltered: true };
        let got = self.host.regroup(Side::End, call, &room);
        self.tally.equal(&got, &expected, || format!("{name}: {}", call.text()));
        let _ = self.regroup(call, room.len());
    }

    /// The listing is these items, each at depth 1, just as many as the slices hold, or this refusal.
    pub fn listing_is(&mut self, name: &str, call: &Call, expected: Result<&[Place], Refused>) {
        let count = expected.map_or(3, <[_]>::len);
        let (key_slice, number_slice) = (filled(16 * count), vec![7; 3 * count]);
        let (answer, keys, numbers) = match expected {
            Ok(items) => {
                let keys = items.iter().flat_map(|item| item.0).collect();
                let numbers = items.iter().flat_map(|item| [item.1, item.2, 1]).collect();
                (count as u64, keys, numbers)
            }
            Err(refused) => (coded(refused), key_slice.clone(), number_slice.clone()),
        };
        let expected = Listed { answer, keys: Bytes(keys), numbers, rest_unaltered: true };
        let got = self.host.listing(Side::End, call, &key_slice, &number_slice);
        self.tally.equal(&got, &expected, || format!("{name}, listing: {}", call.text()));
        self.listing(call, key_slice.len(), number_slice.len());
    }

    /// The listing gives this number of longer forms, or this refusal, which leaves the number.
    pub fn longer_is(&mut self, name: &str, call: &Call, expected: Result<u64, Refused>) {
        self.longer_with(name, call, [16 * MOST_ITEMS, 3 * MOST_ITEMS], expected);
    }

    /// The same with slices of this many bytes and numbers.
    pub fn longer_with(&mut self, name: &str, call: &Call, room: [usize; 2], expected: Result<u64, Refused>) {
        let (keys, numbers) = (filled(room[0]), vec![7; room[1]]);
        let title = format!("{name}: {}", call.text());
        longer_told(&mut self.tally, &title, expected, |side| {
            self.host.listing_longer(side, call, &keys, &numbers, UNSET)
        });
        self.listing(call, room[0], room[1]);
    }
}

/// A listing tells this number of longer forms at both sides, or this refusal, which leaves the number.
pub fn longer_told(tally: &mut Tally, title: &str, expected: Result<u64, Refused>, entry: impl Fn(Side) -> Counted) {
    for side in Side::BOTH {
        let Counted { listed, longer } = entry(side);
        let got = if listed.answer < 1_000_000 { Ok(longer) } else { Err((listed.answer, longer)) };
        let expected = expected.map_err(|refused| (coded(refused), UNSET));
        tally.equal(got, expected, || format!("longer forms, {side:?}, {title}"));
    }
}

/// The answer that a refusal's number and place give.
pub fn coded((number, place): Refused) -> u64 {
    1_000_000 + 1_000 * number + place
}
