//! How a command ends that does not do what it was asked.

use crate::words;
use std::fmt;
use std::io::{self, Write};
use wallmirror::Refusal;

/// The exit status of a command that the library refused.
pub const REFUSED: u8 = 1;

/// The exit status of a command with bad input, or with files that cannot be read or written.
pub const BAD: u8 = 2;

/// Why a command did nothing. It is said in one line on standard error.
#[derive(Debug)]
pub struct Failure {
    /// For standard output.
    pub printed: String,
    /// For standard error: what is wrong, and what to do.
    pub said: String,
    pub status: u8,
}

impl Failure {
    /// Bad input, or a file that cannot be read or written.
    pub fn bad(said: impl fmt::Display) -> Failure {
        Failure { printed: String::new(), said: said.to_string(), status: BAD }
    }

    /// A call that the library refused. What the refusal says of it is added where it is known.
    pub fn refused(refusal: Refusal, of: Option<String>) -> Failure {
        let of = of.map_or(String::new(), |of| format!(": {of}"));
        let said = format!("{}{of}", words::refusal(refusal));
        Failure { printed: String::new(), said, status: REFUSED }
    }

    /// Says this as well.
    pub fn adding(self, said: &str) -> Failure {
        Failure { said: self.said + said, ..self }
    }

    /// Prints this as well.
    pub fn printing(self, printed: String) -> Failure {
        Failure { printed, ..self }
    }
}

/// Says a line on standard error. Where nobody can hear it, the exit status still tells.
pub fn say(said: &str) {
    let _ = writeln!(io::stderr(), "wallmirror: {}", one_line(said));
}

/// Names of files may have any characters; a line feed would make two lines of one.
pub fn one_line(said: &str) -> String {
    said.chars().map(|c| if c.is_control() { '?' } else { c }).collect()
}
