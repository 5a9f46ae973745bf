//! Lengths of the slices that the operations write: just enough, one less, more, none.
use super::answers::output_of;
use super::build::{call, chain, PLAIN};
use crate::compare_deep::{count_of, Deep};
use crate::generate::nested::{item, SETS};

pub fn all(deep: &mut Deep, _seed: u64) {
    for byte in SETS {
        for depth in 1..=4 {
            let call = call(byte, &chain(&vec![byte; depth], &item(byte, &PLAIN, &[1, 2, 3]).repeat(2)));
            let needed = output_of(&call).map_or(0, |output| output.len());
            for room in [0, 1, 16, 17, needed - 1, needed, needed + 1, needed + 63, 65_536, 70_000] {
                let accepted = deep.write(&call, room).is_ok();
                deep.tally.equal(accepted, room >= needed, || format!("{room} bytes for {needed}: {}", call.text()));
            }
            let count = count_of(&call).unwrap_or(0);
            for keys in [0, 16, 16 * count - 1, 16 * count, 16 * count + 1, 16 * count + 16] {
                for numbers in [0, 2 * count, 3 * count - 1, 3 * count, 3 * count + 1, 3 * count + 3] {
                    let accepted = deep.listing(&call, keys, numbers).answer == count as u64;
                    let enough = keys >= 16 * count && numbers >= 3 * count;
                    deep.tally.equal(accepted, enough, || format!("{keys} bytes, {numbers} numbers for {count} items"));
                }
            }
        }
    }
}
