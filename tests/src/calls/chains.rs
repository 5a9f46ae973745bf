//! Chains of regrouping calls: they keep the item list, and a direct call gives the same bytes.
use crate::call::Call;
use crate::compare_calls::Calls;
use crate::generate::plan::Plan;
use crate::generate::set::{self, Global, Keys};
use crate::generate::{alter, bytes, room, wire};
use crate::groups::kind::{Group, Sort, SORTS};
use crate::groups::{family, Key};
use crate::guard::Side;
use crate::random::{rounds, Random};

/// How many chains are made in a round, and for each fault.
const CHAINS: u64 = 4_000;
const FEW: u64 = 100;

/// The most calls of a chain.
const MOST_CALLS: usize = 6;

pub fn all(calls: &mut Calls, seed: u64) {
    chains(calls, seed ^ 0xE0, CHAINS * rounds());
}

pub fn few(calls: &mut Calls, seed: u64) {
    chains(calls, seed ^ 0xE1, FEW);
}

fn chains(calls: &mut Calls, seed: u64, count: u64) {
    let mut random = Random::new(seed);
    for _ in 0..count {
        two_chains(calls, &mut random);
    }
}

/// The keys of two families and of a global set, whose byte 6 may be any of its sort.
struct Families {
    plain: [Key; 2],
    global: Key,
}

impl Families {
    /// A target of any group byte; global ones, which join the families, more often than others.
    fn target(&self, random: &mut Random) -> Key {
        let global = random.one_in(4);
        let (byte, sort, _) = loop {
            let sort = random.choose(&SORTS);
            if (sort.1 == Sort::Global) == global {
                break sort;
            }
        };
        let mut key = if sort == Sort::Global { self.global } else { self.plain[random.below(2)] };
        key[5] = byte;
        key
    }
}

/// A first input that any of the 26 kinds takes, and the families of its targets.
fn start(random: &mut Random) -> (Call, Families) {
    let bounds = set::bounds();
    let (c, g) = loop {
        let (c, g) = random.choose(&bounds);
        if c <= 5 {
            break (c, g);
        }
    };
    let global = Some(Global { byte: 0x02, c, g });
    let keys = set::with_globals(random, [0x02, 0x23], [global, None]).expect("one root");
    let other = set::keys(random, 0x05, 0x05).source;
    let families = Families { plain: [keys.target, other], global: keys.source };
    let mut defined = keys.target;
    defined[5] = 0x05;
    let lengths: Vec<usize> = (0..random.below(6)).map(|_| random.below(20)).collect();
    let keys = Keys { source: defined, target: keys.target, stem: keys.stem };
    let mut plan = Plan::with_keys(random, &keys, &lengths);
    plan.measure(random);
    if random.one_in(8) {
        plan.damage_measured(random);
    }
    plan.source = families.target(random);
    if random.one_in(6) {
        alter::alter(random, &mut plan);
    }
    let mut call = wire::call(random, &plan, true);
    if random.one_in(10) {
        bytes::damage_call(random, &mut call);
    }
    (call, families)
}

/// Two chains from one first input, then the same target at the end of both.
fn two_chains(calls: &mut Calls, random: &mut Random) {
    let (first, families) = start(random);
    let last = families.target(random);
    let ends: [Option<Vec<u8>>; 2] = [0, 1].map(|_| {
        let kept = chain(calls, random, &first, &families);
        let call = first.with_group(kept).with_target(&last);
        let room = room::output_of(&call).map_or(0, |output| output.len());
        calls.regroup(&call, room).ok()
    });
    if let [Some(a), Some(b)] = ends {
        calls.seen.two_chains += 1;
        calls.tally.equal(a == b, true, || format!("two chains to one target: {}", first.text()));
    }
}

/// Runs a chain and answers the bytes kept.
fn chain(calls: &mut Calls, random: &mut Random, first: &Call, families: &Families) -> Vec<u8> {
    calls.seen.chains += 1;
    let items = calls.list(first);
    let mut kept = first.group.clone();
    let mut last = None;
    for _ in 0..random.below(MOST_CALLS + 1) {
        let mut target = families.target(random).to_vec();
        if random.one_in(12) {
            bytes::damage(random, &mut target);
        }
        let call = first.with_group(kept.clone()).with_target(&target);
        let room = room::output(random, &call);
        if let Ok(output) = calls.regroup(&call, room) {
            calls.seen.chain_calls += 1;
            kept = output;
            last = Some(target);
        }
    }
    let after = calls.list(&first.with_group(kept.clone()));
    calls.tally.equal(&after, &items, || format!("a chain keeps the items: {}", first.text()));
    match last {
        Some(target) => direct(calls, first, &target, &kept),
        None => calls.tally.equal(kept == first.group, true, || "no call was accepted".to_string()),
    }
    kept
}

/// The direct call of one family gives the bytes kept; of two families, refusal 6.
fn direct(calls: &mut Calls, first: &Call, target: &[u8], kept: &[u8]) {
    let call = first.with_target(target);
    let got = calls.host.regroup(Side::End, &call, &vec![0x00; kept.len()]);
    let [source, target] = [&first.group[..16], target].map(|key| Group::of_key(key.try_into().expect("16 bytes")));
    let (Some(source), Some(target)) = (source, target) else {
        panic!("an accepted call has two group keys");
    };
    let one_family = family::same(&source, &target);
    let count = if one_family { &mut calls.seen.direct } else { &mut calls.seen.two_families };
    *count += 1;
    let expected = if one_family { (kept.len() as u64, kept) } else { (1_006_000, &vec![0x00; kept.len()][..]) };
    calls.tally.equal((got.answer, &got.output.0[..]), expected, || format!("a direct call: {}", call.text()));
}
