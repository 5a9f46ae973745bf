//! Random trees, whole and damaged; small ones with every byte changed, and cut off at every byte.
use super::answers::output_of;
use crate::call::Call;
use crate::compare_deep::{count_of, Deep};
use crate::generate::bytes::{damage_call, BOUNDARY};
use crate::generate::nested::{Nest, SETS};
use crate::generate::room::about;
use crate::generate::wire::enclose;
use crate::random::{rounds, Random};

/// How many trees are made for every outermost set: in a round, and for each fault.
const TURNS: usize = 800;
const FEW: usize = 25;

pub fn all(deep: &mut Deep, seed: u64) {
    for round in 0..rounds() {
        turns(deep, seed ^ 0xD4 ^ round << 32, TURNS);
    }
}

pub fn few(deep: &mut Deep, seed: u64) {
    turns(deep, seed ^ 0xD5, FEW);
}

fn turns(deep: &mut Deep, seed: u64, turns: usize) {
    let mut random = Random::new(seed);
    for _ in 0..turns {
        for byte in SETS {
            one(deep, &mut random, byte);
        }
    }
}

/// A tree, half of the time with faults inside, at times with damaged bytes; slices that may be short.
fn one(deep: &mut Deep, random: &mut Random, byte: u8) {
    let [longer, faulty] = [random.one_in(3), random.one_in(2)];
    let nest = Nest::new(random, longer, faulty);
    let mut call = nest.call(random, byte);
    if faulty && random.one_in(2) {
        damage_call(random, &mut call);
    }
    let needed = output_of(&call).map_or(random.below(100), |output| output.len());
    let room = about(random, needed);
    let _ = deep.write(&call, room);
    let count = count_of(&call).unwrap_or_else(|| random.below(5));
    let (keys, numbers) = (about(random, 16 * count), about(random, 3 * count));
    deep.listing(&call, keys, numbers);
}

/// A tree of a few items whose group has at most this many bytes, and which is accepted.
fn small(random: &mut Random, byte: u8, most: usize) -> Call {
    loop {
        let longer = random.one_in(3);
        let call = Nest::new(random, longer, false).call(random, byte);
        let items = count_of(&call).unwrap_or(0);
        if (4..30).contains(&items) && call.group.len() <= most {
            return call;
        }
    }
}

/// Every byte of a small tree, and of some tables, changed to boundary values and to its neighbours.
pub fn one_byte(deep: &mut Deep, seed: u64) {
    let mut random = Random::new(seed ^ 0xD6);
    for (turn, byte) in SETS.into_iter().enumerate() {
        let call = small(&mut random, byte, 260);
        changed(deep, &call, |call| &mut call.group);
        if turn % 6 == 0 {
            changed(deep, &call, |call| &mut call.tags);
        }
    }
}

fn changed(deep: &mut Deep, call: &Call, input: fn(&mut Call) -> &mut Vec<u8>) {
    let mut changed = call.clone();
    for place in 0..input(&mut changed).len() {
        let own = input(&mut changed)[place];
        for byte in BOUNDARY.into_iter().chain([own.wrapping_add(1), own.wrapping_sub(1), own ^ 0x80]) {
            input(&mut changed)[place] = byte;
            let room = output_of(&changed).map_or(100, |output| output.len());
            let _ = deep.write(&changed, room);
        }
        input(&mut changed)[place] = own;
    }
}

/// Small trees that are cut off at every byte: with the outer length of the whole, and with one that is right.
pub fn truncations(deep: &mut Deep, seed: u64) {
    let mut random = Random::new(seed ^ 0xD7);
    for byte in SETS {
        for _ in 0..6 {
            let call = small(&mut random, byte, 400);
            let key = call.group[..16].try_into().expect("a group");
            let contents = contents_of(&call.group).to_vec();
            for end in 0..call.group.len() {
                let _ = deep.write(&call.with_group(call.group[..end].to_vec()), 100);
            }
            for end in 0..contents.len() {
                let cut = call.with_group(enclose(&key, &contents[..end]));
                let room = output_of(&cut).map_or(100, |output| output.len());
                let _ = deep.write(&cut, room);
            }
        }
    }
}

/// What stands behind the outer length of a group that was just made.
fn contents_of(group: &[u8]) -> &[u8] {
    let width = match group[16] {
        first @ 0x81..=0x88 => 1 + usize::from(first - 0x80),
        _ => 1,
    };
    &group[16 + width..]
}
