//! Keys where a call tests them: in a record of either table, as the target, as the group's key and as an item's.
use crate::call::Call;
use crate::cases::keys::{changes_of_one_byte, pairs_5_and_6};
use crate::compare_calls::Calls;
use crate::groups::Key;

use super::literals::{self, ITEM, SET_01};

pub fn one_byte_changed(calls: &mut Calls, _seed: u64) {
    changes_of_one_byte(|key| everywhere(calls, key));
}

pub fn bytes_5_and_6(calls: &mut Calls, _seed: u64) {
    pairs_5_and_6(|key| everywhere(calls, key));
}

/// One call for each place that holds the key.
fn everywhere(calls: &mut Calls, key: &Key) {
    let set = |group: &Key, item: &Key| [&group[..], &[0x11], item, &[0x00]].concat();
    let record = [&[0, 0, 0, 1], &key[..]].concat();
    let [own, item] = [SET_01, ITEM].map(literals::key);
    let group = set(&own, &item);
    let call = Call { tags: Vec::new(), packs: Vec::new(), target: own.to_vec(), group: group.clone() };
    for call in [
        Call { tags: record.clone(), ..call.clone() },
        Call { packs: record, ..call.clone() },
        call.with_target(key),
        call.with_group(set(key, &item)),
        call.with_group(set(&own, key)),
    ] {
        let _ = calls.regroup(&call, group.len());
    }
}
