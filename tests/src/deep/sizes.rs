//! Outputs of 65,536 bytes and one more.
use super::answers::output_of;
use super::build::{call, set, PLAIN};
use crate::call::Call;
use crate::compare_deep::{count_of, Deep};
use crate::generate::nested::{item, lengths, SETS};
use crate::groups::MOST_BYTES;
use crate::numbers::Form;

/// Sets that hold long values.
fn long_sets() -> impl Iterator<Item = u8> {
    SETS.into_iter().filter(|byte| lengths(*byte) != Form::One)
}

/// Every set with a long value: in the outermost one, and in one inside.
pub fn outputs(deep: &mut Deep, _seed: u64) {
    for outermost in long_sets() {
        for nested in SETS {
            let small = item(nested, &PLAIN, &[0xCD]);
            ends(deep, |length| {
                let inside = item(outermost, &set(nested), &small);
                call(outermost, &[inside, item(outermost, &PLAIN, &vec![0xAB; length])].concat())
            });
        }
        for nested in long_sets() {
            ends(deep, |length| {
                let inside = item(nested, &PLAIN, &vec![0xAB; length]);
                call(outermost, &item(outermost, &set(nested), &inside))
            });
        }
    }
}

/// A value of a length with which the output has 65,535, 65,536 or 65,537 bytes. The longest is refused with 14, whatever
/// the room, and the listing still answers; where nothing grows the input is too long already.
fn ends(deep: &mut Deep, sized: impl Fn(usize) -> Call) {
    let rest = output_of(&sized(0x8000)).map_or(0, |output| output.len() - 0x8000);
    for output in [MOST_BYTES - 1, MOST_BYTES] {
        deep.accepted("a long output", &sized(output - rest));
    }
    let call = sized(MOST_BYTES + 1 - rest);
    let oversize = call.group.len() > MOST_BYTES;
    for room in [0, MOST_BYTES, MOST_BYTES + 1] {
        let number = deep.write(&call, room).map_err(|refusal| refusal.number());
        let expected = if oversize { 4 } else { 14 };
        deep.tally.equal(number, Err(expected), || format!("an output of 65,537 bytes with {room}"));
    }
    let count = count_of(&call).unwrap_or(0);
    let got = deep.listing(&call, 16 * count, 3 * count).answer;
    let expected = if oversize { 1_004_000 } else { count as u64 };
    deep.tally.equal(got, expected, || "the listing for an output of 65,537 bytes".to_string());
}
