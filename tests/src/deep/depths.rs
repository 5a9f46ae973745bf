//! Depths 1 to 5, for every set as outermost and as nested.
use super::build::{call, chain, set, PLACE, PLAIN};
use crate::compare_deep::Deep;
use crate::generate::nested::{item, SETS};
use crate::random::Random;

/// How many chains of sets of any kinds are made.
const MIXED: usize = 300;

pub fn all(deep: &mut Deep, _seed: u64) {
    for outermost in SETS {
        for nested in SETS {
            for depth in 1..=5 {
                let sets = [&[outermost][..], &vec![nested; depth - 1]].concat();
                chained(deep, &sets);
            }
        }
    }
}

/// Every level of any kind.
pub fn mixed(deep: &mut Deep, seed: u64) {
    let mut random = Random::new(seed ^ 0xD3);
    for turn in 0..MIXED {
        let sets: Vec<u8> = (0..2 + turn % 4).map(|_| random.choose(&SETS)).collect();
        chained(deep, &sets);
    }
}

/// A chain of these sets with an item in the innermost one, and with none.
fn chained(deep: &mut Deep, sets: &[u8]) {
    let last = sets[sets.len() - 1];
    for innermost in [item(last, &PLAIN, &[0xCD, 0xEF]), Vec::new()] {
        let call = call(sets[0], &chain(sets, &innermost));
        if sets.len() <= 4 {
            deep.accepted(&format!("{sets:02X?}"), &call);
        } else {
            deep.refused(&format!("{sets:02X?}"), &call, (17, PLACE));
        }
    }
}

/// An item of a set at depth 4 that has a set's key: 17 whatever its value is, but 18 where its span does not read.
pub fn deepest(deep: &mut Deep, _seed: u64) {
    for byte in SETS {
        for nested in SETS {
            let sets = [byte; 4];
            for value in [&[][..], &[0xFF], &[0x80, 0x80], &[0x00; 20]] {
                let call = call(byte, &chain(&sets, &item(byte, &set(nested), value)));
                deep.refused("a set in one at depth 4", &call, (17, PLACE));
            }
            let whole = item(byte, &set(nested), &[0xFF; 3]);
            for left in 1..whole.len() {
                let call = call(byte, &chain(&sets, &whole[..left]));
                deep.refused("a cut-off set in one at depth 4", &call, (18, PLACE));
            }
        }
    }
}

/// Sets beside each other at every depth, some of them empty.
pub fn wide(deep: &mut Deep, _seed: u64) {
    for byte in SETS {
        for nested in SETS {
            let mut contents = Vec::new();
            for depth in 1..4 {
                let holder = if depth == 3 { byte } else { nested };
                let [empty, full] = [&[][..], &contents].map(|value| item(holder, &set(nested), value));
                contents = if full.len() < 100 { [&empty[..], &full, &empty, &full].concat() } else { full };
            }
            deep.accepted("sets beside each other", &call(byte, &contents));
        }
    }
}
