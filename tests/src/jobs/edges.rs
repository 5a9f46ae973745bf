//! Jobs as bytes, held to their texts.
use crate::calls::literals::{call, record, ITEM, PACK_05, SET_01, SET_03, SET_53};
use crate::compare_jobs::Jobs;
use crate::generate::job;
use crate::hex;

/// The job of 01: four pairs, a tag record, a target and a group.
const JOB: &str = "00000020 00000014 00000034 00000000 00000034 00000010 00000044 00000024
    00000102 060E2B34010101010F02000000000000
    060E2B34025301010F01000000000000
    060E2B34020101010F01000000000000 13 060E2B34010101010F02000000000000 02 ABCD";

const TEXT: &str = "OK 1 23
060E2B34010101010F02000000000000 21 2
060E2B34025301010F010000000000000601020002ABCD
";

/// The bytes of 01's job.
pub fn job_of_01() -> Vec<u8> {
    hex::bytes(&JOB.replace('\n', ""))
}

pub fn job(jobs: &mut Jobs, _seed: u64) {
    jobs.prints("01's job", &job_of_01(), TEXT);
}

/// Lines of jobs with no items, empty values, repeated keys, equal offsets, and a value of bytes 0A and 00.
pub fn lines(jobs: &mut Jobs, _seed: u64) {
    let global = "060E2B34020205010101010203000000";
    let under_root = "060E2B34010101020305000000000000";
    let empty = record(0, ITEM).repeat(2);
    for (name, call, text) in [
        (
            "no items",
            call("-", "-", SET_53, &format!("{SET_01} 00")),
            "OK 0 17\n060E2B34025301010F0100000000000000\n".to_string(),
        ),
        (
            "an empty value, and a key again",
            call(&record(7, ITEM), "-", SET_03, &format!("{SET_01} 25 {ITEM} 00 {ITEM} 03 0A00FF")),
            format!("OK 2 24\n{ITEM} 19 0\n{ITEM} 21 3\n{SET_03}07070007030A00FF\n"),
        ),
        (
            "an item of a global set",
            call("-", "-", global, &format!("{SET_01} 12 {under_root} 01 AB")),
            format!("OK 1 21\n{under_root} 20 1\n{global}04050001AB\n"),
        ),
        (
            "elements at one offset",
            call("-", &empty, PACK_05, &format!("{PACK_05} 83 000000")),
            format!("OK 2 17\n{ITEM} 17 0\n{ITEM} 17 0\n{PACK_05}00\n"),
        ),
    ] {
        jobs.prints(name, &job::file(&call), &text);
    }
}
