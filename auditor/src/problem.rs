//! What goes wrong, with its place.

use std::fmt;

/// A place in the repository and what is wrong there; line 0 stands for the file as a whole.
#[derive(Clone, Debug, PartialEq, Eq, PartialOrd, Ord)]
pub struct Problem {
    pub file: String,
    pub line: usize,
    pub text: String,
}

impl Problem {
    pub fn new(file: &str, line: usize, text: impl Into<String>) -> Self {
        Problem {
            file: file.to_string(),
            line,
            text: text.into(),
        }
    }
}

impl fmt::Display for Problem {
    fn fmt(&self, f: &mut fmt::Formatter<'_>) -> fmt::Result {
        match self.line {
            0 => write!(f, "{}: {}", self.file, self.text),
            line => write!(f, "{}:{line}: {}", self.file, self.text),
        }
    }
}
