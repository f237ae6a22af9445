//! `kadzhomir`: looks inside a node's log, cuts it, and adopts logs of the original. docs/OPERATING.md says how to use it.
mod arguments;
mod commands;
mod dump;

use arguments::{Arguments, HELP};
use kadzhomir::Error;
use std::io::{self, Write};
use std::process::ExitCode;

/// What the exit status says: 0, 1 and 2 are of the log, the others of the call.
#[derive(Clone, Copy, Debug, PartialEq, Eq, PartialOrd, Ord)]
pub enum Status {
    /// All bytes are read and whole.
    Sound = 0,
    /// The last entry is torn, or bytes are unread: what a crash leaves.
    Unread = 1,
    /// Refused, or damaged before the length known to be on disk.
    Damaged = 2,
    /// The call's words are off.
    Usage = 64,
    /// A file cannot be read or written, or is in use.
    File = 74,
}

impl From<Status> for ExitCode {
    fn from(status: Status) -> Self {
        ExitCode::from(status as u8)
    }
}

/// What ends a command early.
#[derive(Debug)]
pub enum Failure {
    /// The words of the call.
    Usage(String),
    /// The log, its files, or the store's answer.
    Log(Error),
    /// Standard output.
    Output(io::Error),
}

impl From<Error> for Failure {
    fn from(error: Error) -> Self {
        Failure::Log(error)
    }
}

impl From<io::Error> for Failure {
    fn from(error: io::Error) -> Self {
        Failure::Output(error)
    }
}

fn main() -> ExitCode {
    let arguments = match Arguments::parse(std::env::args_os().skip(1)) {
        Ok(arguments) => arguments,
        Err(failure) => return fail(failure).into(),
    };
    let mut out = io::BufWriter::new(io::stdout().lock());
    let answer = commands::run(&arguments, &mut out).and_then(|status| Ok(out.flush().map(|()| status)?));
    answer.unwrap_or_else(fail).into()
}

fn fail(failure: Failure) -> Status {
    match failure {
        Failure::Usage(what) => {
            say(format_args!("{what}\n\n{HELP}"));
            Status::Usage
        }
        Failure::Log(error) => {
            say(format_args!("{error}"));
            status_of(&error)
        }
        // Nobody reads any more, as with `| head`.
        Failure::Output(error) if error.kind() == io::ErrorKind::BrokenPipe => Status::File,
        Failure::Output(error) => {
            say(format_args!("cannot write: {error}"));
            Status::File
        }
    }
}

/// A line on standard error, where anybody reads it.
pub fn say(line: std::fmt::Arguments) {
    let _ = writeln!(io::stderr(), "kadzhomir: {line}");
}

fn status_of(error: &Error) -> Status {
    match error {
        Error::NoExponent => Status::Usage,
        Error::Io { .. } | Error::Locked { .. } | Error::Exists { .. } => Status::File,
        Error::NoNodeFile { .. } | Error::NodeFileVersion { .. } => Status::File,
        _ => Status::Damaged,
    }
}
