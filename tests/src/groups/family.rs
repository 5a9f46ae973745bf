//! Families (01, "Kinds").
use super::kind::{Group, Sort};
use crate::fault::{planted, Fault};

/// Whether two groups are of one family: their keys differ at most in byte 6, or either is global.
pub fn same(a: &Group, b: &Group) -> bool {
    if planted(Fault::FamilyNotTested) {
        return true;
    }
    let both = planted(Fault::FamilyNeedsBothGlobal);
    let global = [a, b].map(|group| group.sort == Sort::Global);
    let by_global = if both { global == [true; 2] } else { global != [false; 2] };
    let first = if planted(Fault::FamilyWithoutByte8) { 8 } else { 7 };
    by_global || a.key[..5] == b.key[..5] && a.key[6] == b.key[6] && a.key[first..] == b.key[first..]
}
