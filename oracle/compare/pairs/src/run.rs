//! Runs a program on an input.

use std::ffi::OsString;
use std::io;
use std::io::Read;
use std::io::Write;
use std::process::ChildStdin;
use std::process::Command;
use std::process::Stdio;
use std::sync::mpsc;
use std::thread;
use std::time::Duration;

/// A program that has not ended by then is stopped, which is an error.
const PATIENCE: Duration = Duration::from_secs(120);

pub struct Program {
    path: OsString,
    arguments: Vec<OsString>,
}

/// What a program printed, and how it ended if that was not with status 0.
#[derive(Debug, Eq, PartialEq)]
pub struct Ran {
    pub output: Vec<u8>,
    pub failure: Option<String>,
}

impl Program {
    /// A program with its arguments. None if the words are none.
    pub fn new(mut words: impl Iterator<Item = OsString>) -> Option<Program> {
        Some(Program { path: words.next()?, arguments: words.collect() })
    }

    /// Runs it. The input is handed over in pieces of so many bytes.
    pub fn run(&self, input: &[u8], piece: usize) -> io::Result<Ran> {
        let mut command = Command::new(&self.path);
        let mut child =
            command.args(&self.arguments).stdin(Stdio::piped()).stdout(Stdio::piped()).stderr(Stdio::null()).spawn()?;
        let stdin = child.stdin.take().expect("it is piped");
        let mut stdout = child.stdout.take().expect("it is piped");
        thread::scope(|scope| {
            scope.spawn(move || feed(stdin, input, piece));
            let (sender, receiver) = mpsc::channel();
            scope.spawn(move || {
                let mut output = Vec::new();
                let read = stdout.read_to_end(&mut output).map(|_| output);
                // Nobody listens any more if the program was stopped.
                let _ = sender.send(read);
            });
            let read = receiver.recv_timeout(PATIENCE);
            if read.is_err() {
                child.kill()?;
            }
            let status = child.wait()?;
            let late =
                |_| io::Error::other(format!("the program did not end in {PATIENCE:?} on {} bytes", input.len()));
            Ok(Ran { output: read.map_err(late)??, failure: (!status.success()).then(|| status.to_string()) })
        })
    }
}

/// A program need not read to the end: what it does not take is left.
fn feed(mut stdin: ChildStdin, input: &[u8], piece: usize) {
    for part in input.chunks(piece) {
        if stdin.write_all(part).is_err() {
            return;
        }
    }
}
