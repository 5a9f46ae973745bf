//! With no local key at either end, two valid tag tables give the same answer; likewise pack tables with no pack.
use crate::call::Call;
use crate::compare_calls::Calls;
use crate::generate::{self, key, room, table};
use crate::groups::kind::{Sort, SORTS};
use crate::guard::Side;
use crate::random::Random;

/// How many calls are made for a pair of group bytes.
const TURNS: usize = 2;

pub fn all(calls: &mut Calls, seed: u64) {
    let mut random = Random::new(seed ^ 0x90);
    for (source, source_sort, _) in SORTS {
        for (target, target_sort, _) in SORTS {
            for _ in 0..TURNS {
                let call = generate::call(&mut random, source, target);
                let sorts = [source_sort, target_sort];
                if !sorts.iter().any(|sort| matches!(sort, Sort::Local(_))) {
                    other_tags(calls, &mut random, &call);
                }
                if !sorts.iter().any(|sort| matches!(sort, Sort::VariablePack | Sort::DefinedPack)) {
                    other_packs(calls, &mut random, &call);
                }
            }
        }
    }
}

fn other_tags(calls: &mut Calls, random: &mut Random, call: &Call) {
    let keys: Vec<_> = (0..random.below(4)).map(|_| key::any(random)).collect();
    let tags = [table::bytes(&table::tag_table(random, &keys, u32::MAX)), Vec::new()];
    same(calls, random, tags.map(|tags| Call { tags, ..call.clone() }));
}

fn other_packs(calls: &mut Calls, random: &mut Random, call: &Call) {
    let packs = [table::bytes(&table::any_pack_table(random)), Vec::new()];
    same(calls, random, packs.map(|packs| Call { packs, ..call.clone() }));
}

/// Two calls with the same answer, output included; a damaged group may be of another kind.
fn same(calls: &mut Calls, random: &mut Random, pair: [Call; 2]) {
    let kept = |call: &Call| [call.target.get(5), call.group.get(5)].map(|byte| byte.copied());
    if kept(&pair[0]).iter().flatten().any(|byte| uses_tables(*byte)) {
        return;
    }
    let room = room::output(random, &pair[0]);
    let [first, second] = pair.clone().map(|call| calls.host.regroup(Side::End, &call, &vec![0x00; room]));
    calls.tally.equal(first, second, || format!("tables that are not used: {}", pair[0].text()));
    for call in pair {
        let _ = calls.regroup(&call, room);
    }
}

/// A group byte of a local set or a pack.
fn uses_tables(byte: u8) -> bool {
    let sort = SORTS.iter().find(|(group, ..)| *group == byte).map(|(_, sort, _)| *sort);
    sort.is_some_and(|sort| !matches!(sort, Sort::Universal | Sort::Global))
}
