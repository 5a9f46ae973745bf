//! The refusals of jobs: 16 before all else, the others as the regrouping call gives them.
use super::pairs::MALFORMED;
use crate::call::Call;
use crate::calls::literals::{record, value, ITEM, PACK_05, SET_01, SET_03, SET_0B, SET_23};
use crate::calls::order::{broken, case, late};
use crate::compare_jobs::Jobs;
use crate::generate::job;
use crate::groups::MOST_BYTES;

/// Calls that break one or more of the rules 1 to 3, 5 to 13, 19 and 20, and what is printed for their jobs. No job file has
/// room for a group that is too long.
fn cases() -> Vec<(String, Call, String)> {
    let mut cases = Vec::new();
    for (name, call, (number, place)) in late() {
        cases.push((name.to_string(), call.clone(), format!("REFUSED {number} {place}\n")));
        for bit in [0, 1, 2, 4, 5, 6] {
            let text = format!("REFUSED {} 0\n", bit + 1);
            cases.push((format!("{} before {name}", bit + 1), broken(&call, 1 << bit), text));
        }
    }
    cases.retain(|(_, call, _)| job::file(call).len() <= MOST_BYTES);
    cases
}

pub fn others(jobs: &mut Jobs, _seed: u64) {
    for (name, call, text) in cases() {
        jobs.prints(&name, &job::file(&call), &text);
    }
}

/// The same with a byte after the last end, and with a gap before the tag table.
pub fn malformed(jobs: &mut Jobs, _seed: u64) {
    for (name, call, _) in cases() {
        let mut longer = job::file(&call);
        longer.push(0x00);
        jobs.prints(&format!("16 before {name}"), &longer, MALFORMED);
        let parted = job::pairs(&call).map(|(offset, length)| (offset + 1, length));
        let rest = [vec![0x00], job::rest(&call)].concat();
        jobs.prints(&format!("16 before {name}"), &job::with_pairs(parted, &rest), MALFORMED);
    }
}

/// Places of one, two and three digits.
const PLACES: [usize; 8] = [0, 1, 9, 10, 99, 100, 199, 255];

/// Refusals at these places, as many good items before them; 10 at 256 and 11 after the last element.
pub fn places(jobs: &mut Jobs, _seed: u64) {
    let listed = record(7, ITEM);
    let tables = [&listed[..], "-"];
    let unlisted = ITEM.replace("0F02", "0F03");
    let long = format!("07 82 0100 {}", value(256));
    let mut cases = Vec::new();
    for place in PLACES {
        let good = "07 00".repeat(place);
        let [no_label, keys] = [format!("{unlisted} 00"), format!("{ITEM} 00").repeat(place)];
        let empty = record(0, ITEM).repeat(place + 1);
        let at = |number| (number, place as u64);
        cases.push(case("8", tables, SET_01, SET_0B, &format!("{good} 81"), at(8)));
        cases.push(case("19", tables, SET_01, SET_0B, &format!("{good} 80"), at(19)));
        cases.push(case("20", tables, SET_01, SET_03, &format!("{good} 08 00"), at(20)));
        cases.push(case("9", tables, SET_01, SET_03, &format!("{good} 07 80"), at(9)));
        cases.push(case("10", tables, SET_01, SET_03, &"07 00".repeat(257 + place), (10, 256)));
        cases.push(case("11", ["-", &empty], SET_01, PACK_05, "01", (11, place as u64 + 1)));
        cases.push(case("12", tables, SET_03, SET_01, &format!("{keys} {no_label}"), at(12)));
        cases.push(case("13", tables, SET_23, SET_03, &format!("{good} {long}"), at(13)));
    }
    for (name, call, (number, place)) in cases {
        let text = format!("REFUSED {number} {place}\n");
        jobs.prints(&format!("{name} at {place}"), &job::file(&call), &text);
    }
}
