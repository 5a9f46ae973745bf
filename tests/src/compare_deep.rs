//! Compares the deep entries with the second implementation. A call's pack table and target are not lent.
use crate::batch::Comparison;
use crate::call::Call;
use crate::compare_calls::{filled, UNSET};
use crate::fault;
use crate::groups::deep::{deep, listing, records, Record};
use crate::groups::kind::{Group, Sort};
use crate::groups::refusal::{answer, Refusal};
use crate::groups::Key;
use crate::guard::Side;
use crate::hex::{self, Bytes};
use crate::listed::{Counted, Listed};
use crate::probe_deep::{DeepProbe, Written};
use crate::seen_deep::SeenDeep;
use crate::tally::Tally;

/// A tag table that no input is made for.
const OTHER_TAGS: &str = "00000001 060E2B34010101010E7F010000000000 00000007 060E2B34020301010E7F020000000000";

/// How many records a refused listing has room for.
const FEW: usize = 3;

pub struct Deep {
    pub probe: DeepProbe,
    pub tally: Tally,
    pub seen: SeenDeep,
}

impl Comparison for Deep {
    fn tally(&mut self) -> &mut Tally {
        &mut self.tally
    }
}

impl Deep {
    /// A quiet comparison prints no mismatch.
    pub fn new(quiet: bool) -> Deep {
        Deep { probe: DeepProbe::new(), tally: Tally::new(quiet), seen: SeenDeep::new() }
    }

    /// A deep call with an output slice of this length, at both sides, and the deep listing of its group. An accepted
    /// call must keep the tree, and a second one must write the same bytes. Gives the output that the entry left at the
    /// end of its pages.
    pub fn write(&mut self, call: &Call, room: usize) -> Result<Vec<u8>, Refusal> {
        let before = filled(room);
        let mut output = before.clone();
        let result = deep(&call.tags, &call.group, &mut output);
        self.seen.write(result);
        let expected = Written { answer: answer(result), output: Bytes(output), rest_unaltered: true };
        let [first, last] = Side::BOTH.map(|side| self.probe.write(side, call, &before));
        for got in [&first, &last] {
            self.tally.equal(got, &expected, || format!("deep {} output {room} bytes", call.text()));
        }
        let listed = records_of(&self.list(call).listed);
        let mut output = last.output.0;
        output.truncate(result?);
        self.keeps_tree(call, listed, &output);
        self.again(call, &output);
        Ok(output)
    }

    /// A deep listing with just enough room. Gives what the entry left, and the number of longer forms.
    fn list(&mut self, call: &Call) -> Counted {
        let count = count_of(call).unwrap_or(FEW);
        self.listing_longer(call, 16 * count, 3 * count)
    }

    /// A deep listing with slices of these lengths. Gives what the entry left at the end of its pages.
    pub fn listing(&mut self, call: &Call, key_bytes: usize, number_count: usize) -> Listed {
        self.listing_longer(call, key_bytes, number_count).listed
    }

    /// A deep listing with slices of these lengths, at both sides, by the entry without the number of longer forms and by
    /// the one with it. Gives what the former left at the end of its pages, and the number.
    pub fn listing_longer(&mut self, call: &Call, key_bytes: usize, number_count: usize) -> Counted {
        let key_slice = filled(key_bytes);
        let number_slice: Vec<u32> = (0..number_count as u32).map(|i| i ^ 0xC0DE_0000).collect();
        let (mut keys, mut numbers, mut longer) = (key_slice.clone(), number_slice.clone(), UNSET);
        let result = listing(&call.tags, &call.group, &mut keys, &mut numbers, &mut longer);
        self.seen.listing(result, longer);
        let inputs = || format!("deep listing {} keys {key_bytes} bytes, {number_count} numbers", call.text());
        let listed = Listed { answer: answer(result), keys: Bytes(keys), numbers, rest_unaltered: true };
        let [first, last] = Side::BOTH.map(|side| self.probe.listing(side, call, &key_slice, &number_slice));
        for got in [&first, &last] {
            self.tally.equal(got, &listed, inputs);
        }
        let expected = Counted { listed, longer };
        let [_, longer] = Side::BOTH.map(|side| {
            let got = self.probe.listing_longer(side, call, &key_slice, &number_slice, UNSET);
            self.tally.equal(&got, &expected, || format!("longer forms, {}", inputs()));
            got.longer
        });
        Counted { listed: last, longer }
    }

    /// The tree of items is the same before and after, byte 6 of opened keys aside; that is 01 afterwards, and there is no
    /// longer form.
    fn keeps_tree(&mut self, call: &Call, listed: Option<Vec<Record>>, output: &[u8]) {
        let after = self.list(&call.with_group(output.to_vec()));
        self.tally.equal(after.longer, 0, || format!("no longer form is written: {}", call.text()));
        let (Some(before), Some(after)) = (listed, records_of(&after.listed)) else {
            return self.tally.equal(true, false, || format!("both are listed: {}", call.text()));
        };
        self.seen.tree(call.group[5], &before);
        let trees = [shape(&before, &call.group), shape(&after, output)];
        self.tally.equal(&trees[1], &trees[0], || format!("the same tree: {}", call.text()));
        let universal = after.iter().all(|(key, _)| !is_opened(key) || key[5] == 0x01);
        self.tally.equal(universal && output[5] == 0x01, true, || format!("universal form: {}", call.text()));
    }

    /// A second application writes the same bytes, under the same tag table, under none and under another.
    fn again(&mut self, call: &Call, output: &[u8]) {
        let expected = Written { answer: output.len() as u64, output: Bytes(output.to_vec()), rest_unaltered: true };
        for tags in [call.tags.clone(), Vec::new(), hex::bytes(OTHER_TAGS)] {
            let second = Call { tags, ..call.with_group(output.to_vec()) };
            let got = self.probe.write(Side::End, &second, &filled(output.len()));
            self.tally.equal(&got, &expected, || format!("a second application: {}", second.text()));
        }
    }
}

/// The number of items that the deep listing of a call's group gives, where that is read.
pub fn count_of(call: &Call) -> Option<usize> {
    fault::without(|| records(&call.tags, &call.group).ok().map(|(records, _)| records.len()))
}

/// The records of a listing that was accepted.
fn records_of(listed: &Listed) -> Option<Vec<Record>> {
    let count = usize::try_from(listed.answer).ok().filter(|count| 3 * count <= listed.numbers.len())?;
    let keys = listed.keys.0.chunks_exact(16).take(count);
    let numbers = listed.numbers.chunks_exact(3).take(count);
    keys.zip(numbers).map(|(key, three)| Some((key.try_into().ok()?, three.try_into().ok()?))).collect()
}

/// Whether a key is that of a universal or local set.
pub fn is_opened(key: &Key) -> bool {
    let group = fault::without(|| Group::of_key(key));
    group.is_some_and(|group| matches!(group.sort, Sort::Universal | Sort::Local(_)))
}

/// A record's key, byte 6 of an opened one aside, its depth, and the value of one that is not opened.
type Shape<'a> = (Key, u32, Option<&'a [u8]>);

/// The records of a listing without what may change.
fn shape<'a>(records: &[Record], group: &'a [u8]) -> Vec<Shape<'a>> {
    let shape = |(key, [offset, length, depth]): &Record| {
        let mut key = *key;
        let value = group.get(*offset as usize..(offset + length) as usize);
        if is_opened(&key) {
            key[5] = 0x01;
            return (key, *depth, None);
        }
        (key, *depth, value)
    };
    records.iter().map(shape).collect()
}
