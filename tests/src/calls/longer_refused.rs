//! A refused listing leaves the number of longer forms, whatever stands before what is refused.
use super::literals::{call, record, value, ITEM, PACK_04, SET_03, SET_0B};
use crate::compare_calls::Calls;
use crate::literal::Refused;

/// A set of two items, the first of which is longer than needed.
const ITEMS: &str = "07 81 01 AB 07 00";

/// Refusals 1, 2, 4, 5, 7 to 11, 19 and 20.
pub fn all(calls: &mut Calls, _seed: u64) {
    let whole = format!("{SET_03} 06 {ITEMS}");
    let tags = record(7, ITEM);
    calls.longer_is("nothing is refused", &call(&tags, "-", "-", &whole), Ok(1));
    calls.longer_is("a tag table", &call(&format!("{tags} 00"), "-", "-", &whole), Err((1, 0)));
    calls.longer_is("a pack table", &call(&tags, "00", "-", &whole), Err((2, 0)));
    let long = format!("{SET_03} 83 00FFEF {ITEMS} 07 82 FFE5 {}", value(0xFFE5));
    calls.longer_is("65,537 bytes", &call(&tags, "-", "-", &long), Err((4, 0)));
    let many = format!("{SET_03} 82 0303 {}", "07 81 00".repeat(257));
    calls.longer_is("257 items", &call(&tags, "-", "-", &many), Err((10, 256)));
    for (group, refused) in groups() {
        let call = call(&tags, &record(1, ITEM), "-", &group);
        calls.longer_is(&format!("{refused:?}"), &call, Err(refused));
    }
}

/// Groups that do not read, and the refusals.
fn groups() -> [(String, Refused); 9] {
    [
        ("-".to_string(), (5, 0)),
        (SET_03[..30].to_string(), (5, 0)),
        (SET_03.to_string(), (7, 0)),
        (format!("{SET_03} 07 {ITEMS}"), (7, 0)),
        (format!("{SET_0B} 07 {ITEMS} 81"), (8, 2)),
        (format!("{SET_03} 09 {ITEMS} 07 81 01"), (9, 2)),
        (format!("{PACK_04} 04 81 01 AB 00"), (11, 1)),
        (format!("{SET_0B} 08 {ITEMS} 80 00"), (19, 2)),
        (format!("{SET_03} 08 {ITEMS} 08 00"), (20, 2)),
    ]
}

/// Slices that are too short by one or more, and just long enough.
pub fn short_slices(calls: &mut Calls, _seed: u64) {
    for (count, group) in [(1, "03 07 81 00"), (2, "06 07 81 01 AB 07 00"), (3, "09 07 81 00 07 81 00 07 81 00")] {
        let longer = if count == 2 { 1 } else { count as u64 };
        let call = call(&record(7, ITEM), "-", "-", &format!("{SET_03} {group}"));
        for keys in [0, 16 * count - 1, 16 * count, 16 * count + 1] {
            for numbers in [0, 2 * count, 3 * count - 1, 3 * count, 3 * count + 1] {
                let enough = keys >= 16 * count && numbers >= 3 * count;
                let expected = if enough { Ok(longer) } else { Err((15, 0)) };
                calls.longer_with(&format!("{keys} bytes, {numbers} numbers"), &call, [keys, numbers], expected);
            }
        }
    }
}
