//! Why the program ends with a status other than 0.

use std::io::{self, Write};

use call_log::Trouble;

/// What went wrong, as the one line that is said of it.
#[derive(Debug)]
pub enum Failure {
    /// The library or the tool refuses the input.
    Refused(String),
    /// The command is used wrongly.
    Misuse(String),
    /// A file cannot be read or written.
    File(String),
    /// Nobody reads the output any more.
    ClosedPipe,
}

impl Failure {
    /// The status that the program ends with.
    pub fn status(&self) -> u8 {
        match self {
            Failure::Refused(_) => 1,
            Failure::Misuse(_) | Failure::File(_) => 2,
            Failure::ClosedPipe => 0,
        }
    }

    /// What is said of it, if anything.
    pub fn message(&self) -> Option<&str> {
        match self {
            Failure::Refused(text) | Failure::Misuse(text) | Failure::File(text) => Some(text),
            Failure::ClosedPipe => None,
        }
    }

    /// A file that cannot be read.
    pub fn reading(name: &str, error: &io::Error) -> Failure {
        Failure::File(format!("{name}: {}", words(error)))
    }

    /// A file that cannot be written.
    pub fn writing(name: &str, error: &io::Error) -> Failure {
        match error.kind() {
            io::ErrorKind::BrokenPipe => Failure::ClosedPipe,
            _ => Failure::File(format!("{name}: {}", words(error))),
        }
    }

    /// A text that cannot be read, or is wrong.
    pub fn reading_text(name: &str, trouble: Trouble) -> Failure {
        match trouble {
            Trouble::Io(error) => Failure::reading(name, &error),
            Trouble::Fault(fault) => Failure::Refused(format!("{name}:{fault}")),
        }
    }
}

/// The system's words for an error, without its number.
fn words(error: &io::Error) -> String {
    let text = error.to_string();
    match text.find(" (os error") {
        Some(end) => text[..end].into(),
        None => text,
    }
}

/// Says a line on standard error. Where that is closed there is nobody to tell.
pub fn complain(line: &str) {
    let _ = writeln!(io::stderr(), "pramolyt: {line}");
}
