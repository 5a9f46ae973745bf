//! The bytes of a plan. A key without a tag gets any tag, and a length that is too large is cut off, so that a call may
//! refuse them.
use super::plan::Plan;
use super::set::sort_of;
use super::table;
use crate::call::Call;
use crate::groups::kind::{Sort, SORTS};
use crate::groups::Key;
use crate::numbers::Form;
use crate::random::Random;

/// The bytes of all inputs; BER lengths at times in longer forms.
pub fn call(random: &mut Random, plan: &Plan, longer: bool) -> Call {
    Call {
        tags: table::bytes(&plan.tags),
        packs: table::bytes(&plan.packs),
        target: plan.target.to_vec(),
        group: group(random, plan, &plan.source, longer),
    }
}

/// The plan's items as a group of this key.
pub fn group(random: &mut Random, plan: &Plan, key: &Key, longer: bool) -> Vec<u8> {
    let contents = contents(random, plan, key, |random, _, length| ber(random, length, longer));
    wrap(key, &ber(random, contents.len() as u64, longer), &contents)
}

/// The plan's items as they stand in a group of this key; `form` gives the n-th item's BER length.
pub fn contents(
    random: &mut Random,
    plan: &Plan,
    key: &Key,
    form: impl Fn(&mut Random, usize, u64) -> Vec<u8>,
) -> Vec<u8> {
    let mut contents = Vec::new();
    for (n, (item, value)) in plan.items.iter().enumerate() {
        contents.extend(label(random, plan, key, item));
        contents.extend(match lengths_of(key[5]) {
            Some(Form::Ber) => form(random, n, value.len() as u64),
            Some(fixed_form) => fixed(fixed_form, value.len() as u64),
            None => Vec::new(),
        });
        contents.extend_from_slice(value);
    }
    contents
}

/// The form of the lengths of a group's items, where they have them.
pub fn lengths_of(byte: u8) -> Option<Form> {
    SORTS.iter().find(|(group, ..)| *group == byte).and_then(|(_, _, form)| *form)
}

/// A key, an outer length and what stands after them.
pub fn wrap(key: &Key, length: &[u8], contents: &[u8]) -> Vec<u8> {
    [key, length, contents].concat()
}

/// The same, the outer length in the fewest bytes.
pub fn enclose(key: &Key, contents: &[u8]) -> Vec<u8> {
    wrap(key, &shortest_ber(contents.len() as u64), contents)
}

fn label(random: &mut Random, plan: &Plan, key: &Key, item: &Key) -> Vec<u8> {
    match sort_of(key[5]) {
        Sort::Universal => item.to_vec(),
        Sort::Global => global_tag(key, item),
        Sort::Local(form) => {
            let listed = plan.tags.iter().find(|record| record.1 == *item).map(|record| record.0);
            let tag = listed.unwrap_or_else(|| table::number(random, u32::MAX));
            tag_bytes(form, u64::from(tag))
        }
        Sort::VariablePack | Sort::DefinedPack => Vec::new(),
    }
}

/// The item's key after as many bytes as the root has, without zeros at its end, and 00 if that is short.
fn global_tag(key: &Key, item: &Key) -> Vec<u8> {
    let designator = key[8..].len() - zeros(&key[8..]);
    let root = (usize::from(key[6]) - 1 + designator).min(16);
    let mut tag = item[root..item.len() - zeros(&item[root..])].to_vec();
    if tag.len() < 12 {
        tag.push(0x00);
    }
    tag
}

/// How many words 00 stand at the end of some bytes.
fn zeros(bytes: &[u8]) -> usize {
    let count = bytes.iter().rev().take_while(|byte| **byte == 0x00).count();
    let inside_word = count < bytes.len() && bytes[bytes.len() - count - 1] >= 0x80;
    count.saturating_sub(usize::from(inside_word))
}

pub fn tag_bytes(form: Form, tag: u64) -> Vec<u8> {
    if form != Form::Word {
        return fixed(form, tag);
    }
    let high = (1..4).rev().map(|i| (tag >> (7 * i)) as u8 & 0x7F).skip_while(|bits| *bits == 0);
    let mut bytes: Vec<u8> = high.map(|bits| 0x80 | bits).collect();
    bytes.push(tag as u8 & 0x7F);
    bytes
}

/// The last bytes of a number, as many as the form has.
pub fn fixed(form: Form, n: u64) -> Vec<u8> {
    let width = match form {
        Form::One => 1,
        Form::Two => 2,
        _ => 4,
    };
    n.to_be_bytes()[8 - width..].to_vec()
}

/// A BER length; where longer forms are wanted, at times in one.
pub fn ber(random: &mut Random, n: u64, longer: bool) -> Vec<u8> {
    if longer && random.one_in(2) {
        let least = shortest_ber(n).len().max(2) - 1;
        return long_ber(n, least + random.below(9 - least));
    }
    shortest_ber(n)
}

/// A BER length in the fewest bytes.
pub fn shortest_ber(n: u64) -> Vec<u8> {
    if n < 0x80 {
        return vec![n as u8];
    }
    long_ber(n, (64 - n.leading_zeros() as usize).div_ceil(8))
}

/// A BER length in one byte more than the fewest.
pub fn longer_ber(n: u64) -> Vec<u8> {
    long_ber(n, shortest_ber(n).len())
}

/// A BER length with this many bytes after the first.
pub fn long_ber(n: u64, count: usize) -> Vec<u8> {
    [&[0x80 + count as u8], &n.to_be_bytes()[8 - count..]].concat()
}
