//! Why a command ended before its end.

use std::fmt;
use std::io;

/// What went wrong, with its place.
#[derive(Debug)]
pub enum Failure {
    /// The command line, and which command's help to point to.
    Usage { text: String, command: Option<&'static str> },
    /// A text that says something else than it should: file, line and column from 1.
    Text { name: String, line: usize, column: usize, text: String },
    /// A file or stream that cannot be read, opened or written, and how many bytes had passed.
    Stream { name: String, bytes: Option<u64>, error: io::Error },
    /// Nobody reads the output any more.
    Closed,
}

impl Failure {
    pub fn text(name: &str, line: usize, column: usize, text: impl Into<String>) -> Failure {
        Failure::Text { name: name.to_string(), line, column, text: text.into() }
    }

    /// Of an error while `name` was opened, or after so many bytes of it; a closed pipe is told apart.
    pub fn stream(name: &str, bytes: Option<u64>, error: io::Error) -> Failure {
        match error.kind() {
            io::ErrorKind::BrokenPipe => Failure::Closed,
            _ => Failure::Stream { name: name.to_string(), bytes, error },
        }
    }
}

impl fmt::Display for Failure {
    fn fmt(&self, f: &mut fmt::Formatter) -> fmt::Result {
        match self {
            Failure::Usage { text, command: Some(command) } => {
                write!(f, "{text} (`damper {command} --help` tells more)")
            }
            Failure::Usage { text, command: None } => write!(f, "{text} (`damper --help` tells more)"),
            Failure::Text { name, line, column, text } => write!(f, "{name}:{line}:{column}: {text}"),
            Failure::Stream { name, bytes: Some(bytes), error } => write!(f, "{name}: byte {bytes}: {error}"),
            Failure::Stream { name, bytes: None, error } => write!(f, "{name}: {error}"),
            Failure::Closed => f.write_str("the output is closed"),
        }
    }
}
