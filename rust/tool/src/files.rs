//! Files that are read and written; `-` is standard input or output.

use std::ffi::OsStr;
use std::fs::File;
use std::io::{self, BufReader, BufWriter, IsTerminal, Read, StdoutLock, Write};

use crate::failure::Failure;

/// The most bytes of a file that is read whole. A picture of the largest board has 4 MiB.
pub const MOST_BYTES: usize = 1 << 26;

/// A file that is read.
pub struct Input {
    /// Its name in messages.
    pub name: String,
    pub read: Box<dyn Read>,
}

impl Input {
    pub fn open(name: &OsStr) -> Result<Input, Failure> {
        if name == "-" {
            return Ok(Input {
                name: "standard input".into(),
                read: Box::new(io::stdin().lock()),
            });
        }
        let shown = name.to_string_lossy().into_owned();
        match File::open(name) {
            Ok(file) => Ok(Input {
                name: shown,
                read: Box::new(file),
            }),
            Err(error) => Err(Failure::reading(&shown, &error)),
        }
    }

    pub fn buffered(self) -> BufReader<Box<dyn Read>> {
        BufReader::with_capacity(1 << 16, self.read)
    }

    /// The next bytes, so many where there are so many.
    pub fn read_up_to(&mut self, most: usize) -> Result<Vec<u8>, Failure> {
        let mut bytes = Vec::new();
        let mut part = self.read.by_ref().take(most as u64);
        match part.read_to_end(&mut bytes) {
            Ok(_) => Ok(bytes),
            Err(error) => Err(Failure::reading(&self.name, &error)),
        }
    }

    /// All its bytes.
    pub fn read_all(mut self) -> Result<Vec<u8>, Failure> {
        let bytes = self.read_up_to(MOST_BYTES + 1)?;
        if bytes.len() > MOST_BYTES {
            let name = self.name;
            let message = format!("{name}: the file has more than {MOST_BYTES} bytes");
            return Err(Failure::File(message));
        }
        Ok(bytes)
    }
}

/// Standard output; it is to be flushed.
pub struct Output {
    stdout: BufWriter<StdoutLock<'static>>,
}

impl Output {
    pub fn new() -> Output {
        Output {
            stdout: BufWriter::with_capacity(1 << 16, io::stdout().lock()),
        }
    }

    pub fn write(&mut self, bytes: &[u8]) -> Result<(), Failure> {
        written(self.stdout.write_all(bytes))
    }

    pub fn flush(&mut self) -> Result<(), Failure> {
        written(self.stdout.flush())
    }
}

/// The failure of a write to standard output.
fn written(done: io::Result<()>) -> Result<(), Failure> {
    done.map_err(|error| Failure::writing("standard output", &error))
}

/// Writes a text to standard output.
pub fn print(text: &str) -> Result<(), Failure> {
    print_bytes(text.as_bytes())
}

fn print_bytes(bytes: &[u8]) -> Result<(), Failure> {
    let mut output = Output::new();
    output.write(bytes)?;
    output.flush()
}

/// Writes a file. Binary bytes are not put on a terminal.
pub fn write_file(name: &OsStr, bytes: &[u8], binary: bool) -> Result<(), Failure> {
    let shown = name.to_string_lossy();
    if name != "-" {
        return std::fs::write(name, bytes).map_err(|error| Failure::writing(&shown, &error));
    }
    if binary && io::stdout().is_terminal() {
        return Err(Failure::Misuse(
            "the output is not text and is not put on a terminal; name a file by -o".into(),
        ));
    }
    print_bytes(bytes)
}
