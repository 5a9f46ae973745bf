//! Plans: tables, keys and items of a call before they are bytes.
use super::set::{self, sort_of};
use super::table::{self, Record};
use super::wire::lengths_of;
use super::{key, key::beginning_with};
use crate::groups::kind::Sort;
use crate::groups::Key;
use crate::numbers::Form;
use crate::random::Random;

#[derive(Clone)]
pub struct Plan {
    pub tags: Vec<Record>,
    pub packs: Vec<Record>,
    pub source: Key,
    pub target: Key,
    pub items: Vec<(Key, Vec<u8>)>,
}

/// Lengths of values at which a form ends, or a width changes.
const LENGTHS: [usize; 10] = [0, 1, 126, 127, 128, 129, 254, 255, 256, 257];

/// How many items may be there: sometimes none, most often a few, seldom as many as a set may have.
fn item_count(random: &mut Random) -> usize {
    match random.below(400) {
        0 => 255,
        1 => 256,
        2..=30 => 7 + random.below(30),
        31..=50 => 0,
        _ => 1 + random.below(6),
    }
}

fn value_length(random: &mut Random, most: usize) -> usize {
    let length = match random.below(40) {
        0..=9 => 0,
        10..=12 => random.choose(&LENGTHS),
        13 => random.below(1_200),
        _ => random.below(24),
    };
    length.min(most)
}

/// The largest number of a form among these, or of 32 bits.
fn smallest_limit(forms: impl Iterator<Item = Form>) -> u32 {
    forms
        .map(|form| match form {
            Form::One => 0xFF,
            Form::Two => 0xFFFF,
            Form::Word => (1 << 28) - 1,
            Form::Ber | Form::Four => u32::MAX,
        })
        .min()
        .unwrap_or(u32::MAX)
}

/// The largest value length that both group bytes take.
pub fn longest_value(source: u8, target: u8) -> usize {
    smallest_limit([source, target].into_iter().filter_map(lengths_of)) as usize
}

/// The largest tag that both group bytes take.
pub fn largest_tag(source: u8, target: u8) -> u32 {
    let tags = |byte: u8| match sort_of(byte) {
        Sort::Local(form) => Some(form),
        _ => None,
    };
    smallest_limit([source, target].into_iter().filter_map(tags))
}

impl Plan {
    /// A plan that both group bytes take, with any number of items, some of which may measure themselves.
    pub fn fitting(random: &mut Random, source: u8, target: u8) -> Plan {
        let most = longest_value(source, target);
        let count = item_count(random);
        let lengths: Vec<usize> = (0..count).map(|_| value_length(random, most)).collect();
        let mut plan = Plan::with_lengths(random, source, target, &lengths);
        plan.measure(random);
        plan
    }

    /// A plan that both group bytes take, with items of these lengths, if their lengths fit.
    pub fn with_lengths(random: &mut Random, source: u8, target: u8, lengths: &[usize]) -> Plan {
        let keys = set::keys(random, source, target);
        Plan::with_keys(random, &keys, lengths)
    }

    /// A plan of these keys, with items of these lengths.
    pub fn with_keys(random: &mut Random, keys: &set::Keys, lengths: &[usize]) -> Plan {
        let mut items: Vec<(Key, Vec<u8>)> = Vec::new();
        for length in lengths {
            let key = match items.last() {
                Some(item) if random.one_in(8) => item.0,
                _ => beginning_with(random, &keys.stem),
            };
            items.push((key, random.bytes(*length)));
        }
        let mut plan = Plan { tags: Vec::new(), packs: Vec::new(), source: keys.source, target: keys.target, items };
        plan.make_tables(random);
        plan
    }

    /// The tables that the items need; where they need none, any.
    pub fn make_tables(&mut self, random: &mut Random) {
        let [source, target] = [self.source[5], self.target[5]];
        let sorts = [source, target].map(sort_of);
        let listed: Vec<Key> = if sorts.iter().any(|sort| matches!(sort, Sort::Local(_))) {
            self.items.iter().map(|item| item.0).collect()
        } else {
            (0..random.below(4)).map(|_| key::any(random)).collect()
        };
        self.tags = table::tag_table(random, &listed, largest_tag(source, target));
        let defined = sorts.contains(&Sort::DefinedPack);
        self.packs = if defined || sorts.contains(&Sort::VariablePack) {
            let bound = defined || random.one_in(2);
            self.items.iter().map(|(key, value)| (column(random, bound, value.len()), *key)).collect()
        } else {
            table::any_pack_table(random)
        };
    }
}

/// The length column: the value's length where that is bound, else any number.
fn column(random: &mut Random, bound: bool, length: usize) -> u32 {
    if bound {
        length as u32
    } else {
        table::number(random, u32::MAX)
    }
}
