//! The program, run as a child process with a job file on its standard input.
use std::collections::HashMap;
use std::fmt::{self, Debug, Formatter};
use std::io::Write;
use std::path::PathBuf;
use std::process::{ChildStdin, Command, Stdio};
use std::time::Duration;
use std::{env, thread};

const VARIABLE: &str = "PERLENHUF_PROGRAM";

/// The pause between two pieces of standard input.
const PAUSE: Duration = Duration::from_millis(1);

/// What a run left: standard output, standard error, and the exit status unless a signal ended it.
#[derive(Clone, PartialEq, Eq)]
pub struct Ran {
    pub output: Vec<u8>,
    pub errors: Vec<u8>,
    pub status: Option<i32>,
}

impl Ran {
    /// A run as it must be: this text, nothing on standard error, status 0.
    pub fn well(text: &str) -> Ran {
        Ran { output: text.as_bytes().to_vec(), errors: Vec::new(), status: Some(0) }
    }

    /// A run in which a read or a write failed: this line on standard error, no other text, status 0.
    pub fn failed(line: &str) -> Ran {
        Ran { output: Vec::new(), errors: line.as_bytes().to_vec(), status: Some(0) }
    }
}

impl Debug for Ran {
    fn fmt(&self, to: &mut Formatter) -> fmt::Result {
        let Ran { output, errors, status } = self;
        write!(to, "status {status:?}, output {}, errors {}", shown(output), shown(errors))
    }
}

/// Some bytes as text: the first and the last of them where they are many.
fn shown(bytes: &[u8]) -> String {
    let (count, end) = (bytes.len(), 300);
    if count <= 2 * end {
        return format!("{:?}", String::from_utf8_lossy(bytes));
    }
    let [first, last] = [&bytes[..end], &bytes[count - end..]].map(String::from_utf8_lossy);
    format!("{first:?} .. {last:?} ({count} bytes)")
}

/// The program, and its answers to the files that it was run with.
pub struct Program {
    path: PathBuf,
    answers: HashMap<Vec<u8>, Ran>,
    pub processes: u64,
}

impl Program {
    /// The program of PERLENHUF_PROGRAM, or what is wrong with that.
    pub fn find() -> Result<Program, String> {
        let path = env::var_os(VARIABLE).map(PathBuf::from).ok_or(format!("{VARIABLE} is not set"))?;
        if !path.is_file() {
            return Err(format!("{} is not there: run `tools/build regroup` first", path.display()));
        }
        Ok(Program { path, answers: HashMap::new(), processes: 0 })
    }

    /// The answer to a file. The same file is run once.
    pub fn answer(&mut self, file: &[u8]) -> Ran {
        if let Some(ran) = self.answers.get(file) {
            return ran.clone();
        }
        let ran = self.run(&[file]);
        self.answers.insert(file.to_vec(), ran.clone());
        ran
    }

    /// The answer to a file that comes through a pipe in these pieces.
    pub fn run(&mut self, pieces: &[&[u8]]) -> Ran {
        self.start(self.command(), Stdio::piped(), Stdio::piped(), pieces)
    }

    /// The answer to standard input that is not a pipe.
    pub fn run_on(&mut self, input: impl Into<Stdio>) -> Ran {
        self.run_on_to(input, Stdio::piped())
    }

    /// The same with standard output that is not a pipe either. What goes there is not in the answer.
    pub fn run_on_to(&mut self, input: impl Into<Stdio>, output: impl Into<Stdio>) -> Ran {
        self.start(self.command(), input.into(), output.into(), &[])
    }

    /// The answer to a file with standard output that is not a pipe.
    pub fn run_to(&mut self, output: impl Into<Stdio>, file: &[u8]) -> Ran {
        self.start(self.command(), Stdio::piped(), output.into(), &[file])
    }

    /// The answer to a file where a shell runs this line; `$0` is the program.
    pub fn run_in_shell(&mut self, line: &str, output: impl Into<Stdio>, file: &[u8]) -> Ran {
        let mut shell = Command::new("/bin/sh");
        shell.arg("-c").arg(line).arg(&self.path);
        self.start(shell, Stdio::piped(), output.into(), &[file])
    }

    fn command(&self) -> Command {
        Command::new(&self.path)
    }

    fn start(&mut self, mut command: Command, input: Stdio, output: Stdio, pieces: &[&[u8]]) -> Ran {
        self.processes += 1;
        let child = command.stdin(input).stdout(output).stderr(Stdio::piped()).spawn();
        let mut child = child.unwrap_or_else(|error| panic!("{} does not run: {error}", self.path.display()));
        let pipe = child.stdin.take();
        let ended = thread::scope(|scope| {
            scope.spawn(|| pipe.map(|pipe| feed(pipe, pieces)));
            child.wait_with_output()
        });
        let ended = ended.unwrap_or_else(|error| panic!("{} is not read: {error}", self.path.display()));
        Ran { output: ended.stdout, errors: ended.stderr, status: ended.status.code() }
    }
}

/// Writes the pieces and closes the pipe. A program that has read enough may close it first.
fn feed(mut pipe: ChildStdin, pieces: &[&[u8]]) {
    for (n, piece) in pieces.iter().enumerate() {
        if n > 0 {
            thread::sleep(PAUSE);
        }
        if pipe.write_all(piece).is_err() {
            return;
        }
    }
}
