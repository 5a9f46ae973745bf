//! Standard input that cannot be read, standard output that cannot be written: one line on standard error.
use super::edges::job_of_01;
use super::pairs::MALFORMED;
use super::sizes::universal_file;
use crate::compare_jobs::Jobs;
use crate::groups::job::printed;
use crate::program::Ran;
use std::fs::{self, File};
use std::io::Write;
use std::os::fd::OwnedFd;
use std::os::unix::net::UnixStream;
use std::process::{self, Stdio};

const NOT_READ: &str = "regroup: standard input could not be read\n";
const NOT_WRITTEN: &str = "regroup: standard output could not be written\n";

/// Nothing is printed, even where standard output fails too. What comes after 65,537 bytes is not read.
pub fn input(jobs: &mut Jobs, _seed: u64) {
    let got = jobs.program.run_on(directory());
    jobs.tally.equal(got, Ran::failed(NOT_READ), || "a directory as standard input".to_string());
    let got = jobs.program.run_on_to(directory(), full());
    jobs.tally.equal(got, Ran::failed(NOT_READ), || "a directory to a full device".to_string());
    let got = jobs.program.run_in_shell("exec \"$0\" <&-", Stdio::piped(), &[]);
    jobs.tally.equal(got, Ran::failed(NOT_READ), || "standard input that is closed".to_string());
    let job = job_of_01();
    for count in [0, 1, 32, job.len() - 1, job.len()] {
        breaks_off(jobs, &job[..count], Ran::failed(NOT_READ));
    }
    let long = universal_file(65_537);
    breaks_off(jobs, &long[..65_536], Ran::failed(NOT_READ));
    breaks_off(jobs, &long, Ran::well(MALFORMED));
}

/// Standard input gives these bytes, and then no end but a failure.
fn breaks_off(jobs: &mut Jobs, bytes: &[u8], expected: Ran) {
    let got = jobs.program.run_on(OwnedFd::from(broken_off(bytes)));
    jobs.tally.equal(got, expected, || format!("standard input that fails after {} bytes", bytes.len()));
}

/// A socket with these bytes to read. Its other end was closed before all was read there, so the next read fails.
fn broken_off(bytes: &[u8]) -> UnixStream {
    let (mut socket, mut other) = sockets();
    socket.write_all(&[0x00]).expect("room for a byte");
    other.write_all(bytes).expect("room for a job file");
    socket
}

/// The text of a job, and that of a refusal, cannot be written; of a long text the first bytes can.
pub fn output(jobs: &mut Jobs, _seed: u64) {
    let job = job_of_01();
    for (name, file) in [("a job", &job[..]), ("no job", &[])] {
        let got = jobs.program.run_to(full(), file);
        jobs.tally.equal(got, Ran::failed(NOT_WRITTEN), || format!("{name} to a full device"));
        let got = jobs.program.run_in_shell("exec \"$0\" >&-", Stdio::piped(), file);
        jobs.tally.equal(got, Ran::failed(NOT_WRITTEN), || format!("{name} to standard output that is closed"));
        let got = jobs.program.run_in_shell("trap '' PIPE; exec \"$0\"", OwnedFd::from(unread()), file);
        jobs.tally.equal(got, Ran::failed(NOT_WRITTEN), || format!("{name} to a socket that nobody reads"));
    }
    first_bytes(jobs);
}

/// A file that may have 4,096 bytes gets the text's first.
fn first_bytes(jobs: &mut Jobs) {
    let file = universal_file(65_536);
    let path = std::env::temp_dir().join(format!("perlenhuf-text-{}", process::id()));
    let output = File::create(&path).expect("a file in the folder for files that do not last");
    let got = jobs.program.run_in_shell("trap '' XFSZ; ulimit -f 8; exec \"$0\"", output, &file);
    let written = fs::read(&path).expect("the file is there");
    fs::remove_file(&path).expect("the file is there");
    jobs.tally.equal(got, Ran::failed(NOT_WRITTEN), || "a long text to a file that may not have it".to_string());
    jobs.tally.equal(&written[..], &printed(&file).as_bytes()[..4_096], || "the text's first bytes".to_string());
}

fn directory() -> File {
    File::open("/").expect("a directory opens for reading")
}

fn full() -> File {
    File::options().write(true).open("/dev/full").expect("the device that is always full")
}

/// A socket whose other end is closed.
fn unread() -> UnixStream {
    let (socket, _closed) = sockets();
    socket
}

fn sockets() -> (UnixStream, UnixStream) {
    UnixStream::pair().expect("two sockets")
}
