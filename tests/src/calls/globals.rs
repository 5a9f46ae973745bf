//! Global sets: every c and g, and tags of every length.
use crate::call::Call;
use crate::compare_calls::Calls;
use crate::generate::plan::Plan;
use crate::generate::set::{self, Global};
use crate::generate::wire::{self, enclose};
use crate::generate::{key, room};
use crate::groups::Key;
use crate::random::Random;

const BYTES: [u8; 4] = [0x02, 0x22, 0x42, 0x62];

/// Every c and g, allowed or not, as source and as target of an empty set; those that are allowed with items as well.
pub fn bounds(calls: &mut Calls, seed: u64) {
    let mut random = Random::new(seed ^ 0x60);
    let plain = set::keys(&mut random, 0x01, 0x01).source;
    let mut accepted = Vec::new();
    for c in 0..=10 {
        for g in 0..=8 {
            let byte = random.choose(&BYTES);
            let global = any_global_key(&mut random, byte, c, g);
            let to = empty(&plain, &global);
            let from = empty(&global, &plain);
            let both = [to, from].map(|call| calls.regroup(&call, 17).is_ok());
            let allowed = set::bounds().contains(&(c, g));
            calls.tally.equal(both, [allowed; 2], || format!("c {c} and g {g}: key {global:02X?}"));
            if both == [true; 2] {
                accepted.push((c, g));
            }
        }
    }
    calls.tally.equal(accepted, set::bounds(), || "every c and g that is allowed".to_string());
    for (c, g) in set::bounds() {
        with_items(calls, &mut random, c, g);
    }
}

/// A call whose group has no items.
fn empty(source: &Key, target: &Key) -> Call {
    Call { tags: Vec::new(), packs: Vec::new(), target: target.to_vec(), group: enclose(source, &[]) }
}

/// A global set's key of this c and g; there may be no key that begins with its root.
fn any_global_key(random: &mut Random, byte: u8, c: usize, g: usize) -> Key {
    let mut key = key::any(random);
    key[4..7].copy_from_slice(&[0x02, byte, 1 + c as u8]);
    key[8..].fill(0x00);
    key::fill_words(random, &mut key, 8, 8 + g);
    key
}

/// Items whose keys begin with a root of this c and g, from and to a universal set and another global set.
fn with_items(calls: &mut Calls, random: &mut Random, c: usize, g: usize) {
    for byte in BYTES {
        let global = Global { byte, c, g };
        let other = Global { byte, c: 2, g: 2 };
        let next = Global { byte: random.choose(&BYTES), ..global };
        let ends =
            [[Some(global), None], [None, Some(global)], [Some(global), Some(other)], [Some(next), Some(global)]];
        for ends in ends {
            let bytes = ends.map(|end| end.map_or(0x01, |global: Global| global.byte));
            if let Some(keys) = set::with_globals(random, bytes, ends) {
                let plan = Plan::with_keys(random, &keys, &[2, 0, 5]);
                let call = wire::call(random, &plan, false);
                let output = room::output_of(&call).map_or(0, |output| output.len());
                let accepted = calls.regroup(&call, output).is_ok();
                calls.tally.equal(accepted, true, || format!("c {c} and g {g} with items: {}", call.text()));
            } else {
                other_root(calls, random, ends);
            }
        }
    }
}

/// Items whose keys begin with the source's root and not with the target's.
fn other_root(calls: &mut Calls, random: &mut Random, ends: [Option<Global>; 2]) {
    let (Some(source), Some(target)) = (ends[0], ends[1]) else {
        return;
    };
    let Some(keys) = set::with_globals(random, [source.byte, 0x01], [Some(source), None]) else {
        return;
    };
    let plan = Plan::with_keys(random, &keys, &[2, 0, 5]);
    let mut call = wire::call(random, &plan, false);
    call.target = call.group[..16].to_vec();
    call.target[5..7].copy_from_slice(&[target.byte, 1 + target.c as u8]);
    let output = room::output(random, &call);
    let _ = calls.regroup(&call, output);
}

/// Sets with roots of 4 to 15 bytes, with tags of up to 14 bytes, each one of a few values.
pub fn tags(calls: &mut Calls, seed: u64) {
    let mut random = Random::new(seed ^ 0x61);
    for (c, g) in [(2, 2), (0, 5), (3, 4), (4, 4), (4, 5), (0, 8), (5, 7), (4, 8), (6, 8), (8, 7)] {
        for length in 1..=14 {
            for _ in 0..40 {
                tag(calls, &mut random, Global { byte: 0x02, c, g }, length);
            }
        }
    }
}

/// A group of one item with a tag of this many bytes and what may be its 00, its length and its value after it.
fn tag(calls: &mut Calls, random: &mut Random, global: Global, length: usize) {
    let keys = set::with_globals(random, [global.byte, 0x01], [Some(global), None]).expect("one root");
    let choices: &[u8] = if random.one_in(2) { &[0x01, 0x05, 0x7F] } else { &[0x00, 0x01, 0x05, 0x80, 0x81, 0xFF] };
    let mut contents: Vec<u8> = (0..length).map(|_| random.choose(choices)).collect();
    if random.one_in(2) {
        contents.insert(0, 0x01);
        contents.pop();
    }
    contents.extend([&[0x00, 0x01, 0xAB][..], &[0x01, 0xAB], &[0x00], &[]][random.below(4)]);
    let call = Call {
        tags: Vec::new(),
        packs: Vec::new(),
        target: keys.target.to_vec(),
        group: enclose(&keys.source, &contents),
    };
    let output = room::output(random, &call);
    let _ = calls.regroup(&call, output);
}
