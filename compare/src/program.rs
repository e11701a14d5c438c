//! Runs of a program that reads standard input and prints its answers.

use std::io::{self, ErrorKind, Read, Write};
use std::path::PathBuf;
use std::process::{Child, ChildStdin, Command, Stdio};
use std::thread;

/// What a fresh pipe holds before a writer has to wait for its reader.
const PIPE_BYTES: usize = 65_536;

#[derive(Clone, Debug)]
pub struct Program {
    path: PathBuf,
}

/// What a run gave.
#[derive(Clone, Debug, PartialEq, Eq)]
pub struct Outcome {
    pub output: Vec<u8>,
    pub success: bool,
}

/// A program that was started and given its input.
pub struct Started {
    child: Child,
}

impl Program {
    pub fn new(path: impl Into<PathBuf>) -> Self {
        Self { path: path.into() }
    }

    pub fn start(&self, input: &[u8]) -> io::Result<Started> {
        let mut child =
            Command::new(&self.path).stdin(Stdio::piped()).stdout(Stdio::piped()).spawn().map_err(
                |error| io::Error::new(error.kind(), format!("{:?}: {error}", self.path)),
            )?;
        if let Some(stdin) = child.stdin.take() {
            give(stdin, input)?;
        }
        Ok(Started { child })
    }

    pub fn run(&self, input: &[u8]) -> io::Result<Outcome> {
        self.start(input)?.finish()
    }
}

impl Started {
    pub fn id(&self) -> u32 {
        self.child.id()
    }

    /// Reads what the program prints, up to its end.
    pub fn read(&mut self) -> io::Result<Vec<u8>> {
        let mut output = Vec::new();
        if let Some(stdout) = self.child.stdout.as_mut() {
            stdout.read_to_end(&mut output)?;
        }
        Ok(output)
    }

    pub fn finish(mut self) -> io::Result<Outcome> {
        let output = self.read()?;
        let success = self.child.wait()?.success();
        Ok(Outcome { output, success })
    }
}

/// Gives a program its input and closes it. Only an input that a pipe does
/// not hold needs a thread, since the program may print before it reads all.
fn give(stdin: ChildStdin, input: &[u8]) -> io::Result<()> {
    if input.len() <= PIPE_BYTES {
        return write(stdin, input);
    }
    let input = input.to_vec();
    thread::spawn(move || write(stdin, &input));
    Ok(())
}

/// Writes an input; a program need not read all of it.
fn write(mut stdin: ChildStdin, input: &[u8]) -> io::Result<()> {
    match stdin.write_all(input) {
        Err(error) if error.kind() == ErrorKind::BrokenPipe => Ok(()),
        result => result,
    }
}
