//! Standard input: a pipe that gives the job in pieces, a file, nothing.
use super::edges::job_of_01;
use super::sizes::universal_file;
use crate::compare_jobs::Jobs;
use crate::groups::job::printed;
use crate::program::Ran;
use std::fs::{self, File};
use std::process::{self, Stdio};

pub fn all(jobs: &mut Jobs, _seed: u64) {
    let job = job_of_01();
    pieces(jobs, &job, 1);
    for first in [1, 8, 31, 32, 33, 52, 103] {
        pieces(jobs, &job, first);
    }
    for size in [65_535, 65_536, 65_537, 70_000] {
        let file = universal_file(size);
        pieces(jobs, &file, 4_095);
        pieces(jobs, &file, size - 1);
        from_file(jobs, &file);
    }
    let over = [universal_file(65_536), vec![0x00]].concat();
    pieces(jobs, &over, 65_536);
    pieces(jobs, &over, 32_768);
    from_file(jobs, &over);
    from_file(jobs, &job);
    let got = jobs.program.run_on(Stdio::null());
    jobs.tally.equal(got, Ran::well(&printed(&[])), || "no standard input".to_string());
}

/// The file in pieces of this many bytes.
fn pieces(jobs: &mut Jobs, file: &[u8], count: usize) {
    let pieces: Vec<&[u8]> = file.chunks(count).collect();
    let got = jobs.program.run(&pieces);
    jobs.tally.equal(got, Ran::well(&printed(file)), || format!("{} bytes in pieces of {count}", file.len()));
}

/// The file as a file and not through a pipe.
fn from_file(jobs: &mut Jobs, bytes: &[u8]) {
    let path = std::env::temp_dir().join(format!("perlenhuf-job-{}", process::id()));
    fs::write(&path, bytes).expect("a file in the folder for files that do not last");
    let file = File::open(&path).expect("the file is there");
    fs::remove_file(&path).expect("the file is there");
    let got = jobs.program.run_on(file);
    jobs.tally.equal(got, Ran::well(&printed(bytes)), || format!("{} bytes from a file", bytes.len()));
}
