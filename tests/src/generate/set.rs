//! Keys of groups, and the stems that the keys of their items begin with.
use super::key::{any, beginning_with, fill_words, middle, START};
use crate::groups::kind::{Sort, SORTS};
use crate::groups::Key;
use crate::random::Random;

pub fn sort_of(byte: u8) -> Sort {
    SORTS.iter().find(|(group, ..)| *group == byte).map(|(_, sort, _)| *sort).expect("a group byte")
}

/// Byte 6, c and g of a global set.
#[derive(Clone, Copy)]
pub struct Global {
    pub byte: u8,
    pub c: usize,
    pub g: usize,
}

impl Global {
    fn root_length(&self) -> usize {
        self.c + self.g
    }
}

/// Every c and g that 01 allows.
pub fn bounds() -> Vec<(usize, usize)> {
    let all = (0..=8).flat_map(|c| (2..=8).map(move |g| (c, g)));
    all.filter(|(c, g)| (4..=15).contains(&(c + g))).collect()
}

/// The keys of both groups, and what the keys of their items begin with.
pub struct Keys {
    pub source: Key,
    pub target: Key,
    pub stem: Vec<u8>,
}

/// Keys of one family for two group bytes.
pub fn keys(random: &mut Random, source: u8, target: u8) -> Keys {
    loop {
        let bounds = bounds();
        let mut global = |byte: u8| {
            let (c, g) = random.choose(&bounds);
            (sort_of(byte) == Sort::Global).then_some(Global { byte, c, g })
        };
        let ends = [global(source), global(target)];
        if let Some(keys) = with_globals(random, [source, target], ends) {
            return keys;
        }
    }
}

/// The keys of both groups, global where c and g are given; none where no key begins with both roots.
pub fn with_globals(random: &mut Random, bytes: [u8; 2], ends: [Option<Global>; 2]) -> Option<Keys> {
    let globals: Vec<Global> = ends.into_iter().flatten().collect();
    let base = stem_key(random, &globals)?;
    let length = globals.iter().map(Global::root_length).max().unwrap_or(0);
    let plain = any(random);
    let [source, target] = [0, 1].map(|i| match ends[i] {
        Some(global) => global_key(random, &base, &global),
        None => group_key(&plain, bytes[i]),
    });
    Some(Keys { source, target, stem: base[..length].to_vec() })
}

/// A key of a group that is not global: these bytes with 02 and the group byte.
fn group_key(key: &Key, byte: u8) -> Key {
    let mut key = *key;
    key[4] = 0x02;
    key[5] = byte;
    key
}

/// A global set's key, whose root some bytes begin with.
fn global_key(random: &mut Random, base: &Key, global: &Global) -> Key {
    let mut key = [0; 16];
    key[..4].copy_from_slice(&START);
    let last = if global.c == 8 { base[7] } else { middle(random) };
    key[4..8].copy_from_slice(&[0x02, global.byte, 1 + global.c as u8, last]);
    key[8..8 + global.g].copy_from_slice(&base[global.c..global.root_length()]);
    key
}

/// A key that begins with the roots of all these sets; none where two of them ask for different bytes.
fn stem_key(random: &mut Random, globals: &[Global]) -> Option<Key> {
    let mut key = beginning_with(random, &[]);
    let mut asked: [Option<u8>; 8] = [None; 8];
    for global in globals {
        let own = [0x02, global.byte, 1 + global.c as u8];
        for (place, byte) in (4..global.c.min(7)).zip(own) {
            if asked[place].is_some_and(|other| other != byte) {
                return None;
            }
            asked[place] = Some(byte);
        }
    }
    for (place, byte) in asked.into_iter().enumerate() {
        key[place] = byte.unwrap_or(key[place]);
    }
    if key[4..6] == [0x02, 0x06] {
        key[5] = 0x07;
    }
    let mut ends: Vec<usize> = globals.iter().map(Global::root_length).filter(|end| *end > 8).collect();
    ends.sort();
    let mut at = 8;
    for end in ends {
        fill_words(random, &mut key, at, end);
        at = end;
    }
    Some(key)
}
