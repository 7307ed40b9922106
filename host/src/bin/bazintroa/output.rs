//! What a command hands over: a text for standard output, and files.

use std::io::{self, ErrorKind, Write};
use std::path::PathBuf;

use crate::files;

/// Why the program ends before its work is done.
#[derive(Debug)]
pub enum Failure {
    /// The reader of standard output has gone.
    ClosedPipe,
    /// A line for standard error.
    Said(String),
}

impl From<String> for Failure {
    fn from(line: String) -> Self {
        Failure::Said(line)
    }
}

#[derive(Debug, Default)]
pub struct Output {
    pub text: String,
    pub files: Vec<(PathBuf, String)>,
}

impl Output {
    pub fn text(text: impl Into<String>) -> Self {
        Output {
            text: text.into(),
            files: Vec::new(),
        }
    }

    /// Writes the files, all or none, then the text.
    pub fn deliver(self) -> Result<(), Failure> {
        files::write_all(&self.files)?;
        let mut out = io::stdout().lock();
        out.write_all(self.text.as_bytes())
            .and_then(|()| out.flush())
            .map_err(|error| match error.kind() {
                ErrorKind::BrokenPipe => Failure::ClosedPipe,
                _ => Failure::Said(format!("cannot write to standard output: {error}")),
            })
    }
}
