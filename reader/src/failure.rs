//! Why the reader stopped before the end of its input.

use std::fmt;
use std::io;

#[derive(Debug)]
pub enum Failure {
    /// The text is not of the form, from this line on.
    Malformed { line: usize, message: String },
    /// Reading failed, or writing a file.
    Io(io::Error),
    /// Writing the answers failed.
    Output(io::Error),
    /// It happened in this file.
    InFile { name: String, failure: Box<Failure> },
}

impl Failure {
    pub fn status(&self) -> u8 {
        match self {
            Failure::Io(_) | Failure::Output(_) => 1,
            Failure::Malformed { .. } => 2,
            Failure::InFile { failure, .. } => failure.status(),
        }
    }

    /// Whether whoever reads the answers wants no more of them. That is no fault to speak of.
    pub fn is_closed_pipe(&self) -> bool {
        matches!(self, Failure::Output(error) if error.kind() == io::ErrorKind::BrokenPipe)
    }

    /// The same, said of the line with this key.
    pub fn within(self, key: &str) -> Failure {
        match self {
            Failure::Malformed { line, message } => Failure::Malformed {
                line,
                message: format!("{key}: {message}"),
            },
            other => other,
        }
    }

    /// The same, said of this file, unless it happened elsewhere.
    pub fn of_file(self, name: impl Into<String>) -> Failure {
        match self {
            Failure::Output(_) | Failure::InFile { .. } => self,
            inside => Failure::InFile {
                name: name.into(),
                failure: Box::new(inside),
            },
        }
    }
}

impl fmt::Display for Failure {
    fn fmt(&self, out: &mut fmt::Formatter) -> fmt::Result {
        match self {
            Failure::Malformed { line, message } => write!(out, "line {line}: {message}"),
            Failure::Io(error) | Failure::Output(error) => {
                write!(out, "input or output failed: {error}")
            }
            Failure::InFile { name, failure } => match &**failure {
                Failure::Io(error) => write!(out, "{name}: {error}"),
                other => write!(out, "{name}: {other}"),
            },
        }
    }
}

impl From<io::Error> for Failure {
    fn from(error: io::Error) -> Self {
        Failure::Io(error)
    }
}
