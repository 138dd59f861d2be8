//! A line on standard error while work takes more than a second, where that is a terminal.

use std::io::{self, IsTerminal, Write};
use std::time::{Duration, Instant};

const FIRST: Duration = Duration::from_secs(1);
const AGAIN: Duration = Duration::from_millis(250);

pub struct Progress {
    command: &'static str,
    /// When the line is written next; never where standard error is no terminal.
    next: Option<Instant>,
    /// The characters of the line that stands there.
    shown: usize,
}

impl Progress {
    pub fn new(command: &'static str) -> Progress {
        let terminal = io::stderr().is_terminal();
        Progress {
            command,
            next: terminal.then(|| Instant::now() + FIRST),
            shown: 0,
        }
    }

    /// The same for work that writes to standard output as it goes: where that is a terminal, it is progress enough.
    pub fn beside_output(command: &'static str) -> Progress {
        let mut progress = Progress::new(command);
        if io::stdout().is_terminal() {
            progress.next = None;
        }
        progress
    }

    /// Writes the line anew, where it is time for it.
    pub fn tick(&mut self, text: impl FnOnce() -> String) {
        let now = Instant::now();
        if self.next.is_some_and(|next| now >= next) {
            self.next = Some(now + AGAIN);
            let line = format!("pramolyt: {}: {} ..", self.command, text());
            self.write(&line);
            self.shown = line.chars().count();
        }
    }

    /// Writes over the line that stands there. An error here is no reason to stop the work.
    fn write(&self, line: &str) {
        let width = self.shown;
        let mut error = io::stderr().lock();
        let _ = write!(error, "\r{line:width$}\r").and_then(|()| error.flush());
    }
}

impl Drop for Progress {
    fn drop(&mut self) {
        if self.shown > 0 {
            self.write("");
        }
    }
}
