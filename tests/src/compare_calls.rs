//! Compares the two C entries, and the listing with the number of longer forms, with the second implementation.
use crate::batch::Comparison;
use crate::call::Call;
use crate::groups::listing::listing;
use crate::groups::refusal::{answer, Refusal};
use crate::groups::regroup::regroup;
use crate::groups::{Key, MOST_ITEMS};
use crate::guard::Side;
use crate::hex::Bytes;
use crate::host::{Host, Regrouped};
use crate::listed::{Counted, Listed};
use crate::seen::Seen;
use crate::tally::Tally;

/// What the listing gave: every item's key and value.
pub type Items = Vec<(Key, Vec<u8>)>;

/// What the number of longer forms is before a listing.
pub const UNSET: u64 = 0xC0DE_0000_0000_C0DE;

pub struct Calls {
    pub host: Host,
    pub tally: Tally,
    pub seen: Seen,
}

impl Comparison for Calls {
    fn tally(&mut self) -> &mut Tally {
        &mut self.tally
    }
}

impl Calls {
    /// A quiet comparison prints no mismatch.
    pub fn new(quiet: bool) -> Calls {
        Calls { host: Host::new(), tally: Tally::new(quiet), seen: Seen::new() }
    }

    /// A regrouping call with an output slice of this length, at both sides, and the listing of its group. An accepted
    /// call must keep the item list. Gives the output that the entry left at the end of its pages.
    pub fn regroup(&mut self, call: &Call, room: usize) -> Result<Vec<u8>, Refusal> {
        let before = filled(room);
        let mut output = before.clone();
        let result = regroup(&call.tags, &call.packs, &call.target, &call.group, &mut output);
        self.seen.regroup(result);
        self.seen.measured(call, result);
        let expected = Regrouped { answer: answer(result), output: Bytes(output), rest_unaltered: true };
        let [first, last] = Side::BOTH.map(|side| self.host.regroup(side, call, &before));
        for got in [&first, &last] {
            self.tally.equal(got, &expected, || format!("regroup {} output {room} bytes", call.text()));
        }
        let items = self.list(call);
        let mut output = last.output.0;
        output.truncate(result?);
        self.keeps_items(call, items, &output);
        Ok(output)
    }

    /// The listing of the output gives the same keys and values as the listing of the input, and no longer form.
    fn keeps_items(&mut self, call: &Call, items: Option<Items>, output: &[u8]) {
        let listed = self.listing_longer(&call.with_group(output.to_vec()), 16 * MOST_ITEMS, 3 * MOST_ITEMS);
        self.tally.equal(listed.longer, 0, || format!("no longer form is written: {}", call.text()));
        let after = items_of(&listed.listed, output);
        if items.as_ref().is_some_and(|items| items.iter().any(|(_, value)| !value.is_empty())) {
            self.seen.pair(call.group[5], call.target[5]);
        }
        self.tally.equal(items.is_some() && items == after, true, || format!("items kept: {}", call.text()));
    }

    /// A listing call with room for all items. Gives the items as the entry listed them.
    pub fn list(&mut self, call: &Call) -> Option<Items> {
        let listed = self.listing(call, 16 * MOST_ITEMS, 3 * MOST_ITEMS);
        items_of(&listed, &call.group)
    }

    /// A listing call with slices of these lengths. Gives what the entry left at the end of its pages.
    pub fn listing(&mut self, call: &Call, key_bytes: usize, number_count: usize) -> Listed {
        self.listing_longer(call, key_bytes, number_count).listed
    }

    /// A listing call with slices of these lengths, at both sides, by the entry without the number of longer forms and by
    /// the one with it. Gives what the former left at the end of its pages, and the number.
    pub fn listing_longer(&mut self, call: &Call, key_bytes: usize, number_count: usize) -> Counted {
        let key_slice = filled(key_bytes);
        let number_slice: Vec<u32> = (0..number_count as u32).map(|i| i ^ 0xC0DE_0000).collect();
        let (mut keys, mut numbers, mut longer) = (key_slice.clone(), number_slice.clone(), UNSET);
        let result = listing(&call.tags, &call.packs, &call.group, &mut keys, &mut numbers, &mut longer);
        self.seen.listing(result, longer);
        let inputs = || format!("listing {} keys {key_bytes} bytes, {number_count} numbers", call.text());
        let listed = Listed { answer: answer(result), keys: Bytes(keys), numbers, rest_unaltered: true };
        let [first, last] = Side::BOTH.map(|side| self.host.listing(side, call, &key_slice, &number_slice));
        for got in [&first, &last] {
            self.tally.equal(got, &listed, inputs);
        }
        let expected = Counted { listed, longer };
        let [_, longer] = Side::BOTH.map(|side| {
            let got = self.host.listing_longer(side, call, &key_slice, &number_slice, UNSET);
            self.tally.equal(&got, &expected, || format!("longer forms, {}", inputs()));
            got.longer
        });
        Counted { listed: last, longer }
    }
}

/// What a lent slice holds at first: no two neighbours alike.
pub fn filled(count: usize) -> Vec<u8> {
    (0..count).map(|i| (i % 251) as u8 ^ 0x5A).collect()
}

/// The items of a listing, if it says that all of them lie in the group.
pub fn items_of(listed: &Listed, group: &[u8]) -> Option<Items> {
    let count = usize::try_from(listed.answer).ok().filter(|count| *count <= MOST_ITEMS)?;
    let keys = listed.keys.0.chunks_exact(16).take(count);
    let records = listed.numbers.chunks_exact(3).take(count);
    keys.zip(records)
        .map(|(key, record)| {
            let [offset, length] = [record[0] as usize, record[1] as usize];
            let value = group.get(offset..offset.checked_add(length)?)?;
            Some((key.try_into().ok()?, value.to_vec()))
        })
        .collect()
}
