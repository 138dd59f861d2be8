//! The lines of a text that somebody else wrote: of bounded length, and checked to be text.

use std::fmt;
use std::io::{self, BufRead, Read};

/// The most bytes of a line.
const LONGEST: u64 = 65_536;

/// What is wrong in a text, and where; both numbers count from 1, columns in characters.
#[derive(Clone, Debug, PartialEq, Eq)]
pub struct Fault {
    /// The line.
    pub line: usize,
    /// The column.
    pub column: usize,
    /// What is wrong.
    pub message: String,
}

impl fmt::Display for Fault {
    fn fmt(&self, f: &mut fmt::Formatter<'_>) -> fmt::Result {
        write!(f, "{}:{}: {}", self.line, self.column, self.message)
    }
}

/// Why a text is not read on.
#[derive(Debug)]
pub enum Trouble {
    /// The file cannot be read.
    Io(io::Error),
    /// Its text is wrong.
    Fault(Fault),
}

impl From<io::Error> for Trouble {
    fn from(error: io::Error) -> Trouble {
        Trouble::Io(error)
    }
}

impl From<Fault> for Trouble {
    fn from(fault: Fault) -> Trouble {
        Trouble::Fault(fault)
    }
}

/// The lines of a text, one at a time.
pub struct Lines<R> {
    input: R,
    number: usize,
}

impl<R: BufRead> Lines<R> {
    /// The lines of `input`.
    pub fn new(input: R) -> Lines<R> {
        Lines { input, number: 0 }
    }

    /// The next line, without its end, and its number; none at the end of the text.
    ///
    /// # Errors
    ///
    /// The input cannot be read, or the line is too long or no UTF-8.
    pub fn next_line(&mut self) -> Result<Option<(usize, String)>, Trouble> {
        let mut bytes = Vec::new();
        let read = self
            .input
            .by_ref()
            .take(LONGEST)
            .read_until(b'\n', &mut bytes)?;
        if read == 0 {
            return Ok(None);
        }
        self.number += 1;
        if bytes.last() == Some(&b'\n') {
            bytes.pop();
            if bytes.last() == Some(&b'\r') {
                bytes.pop();
            }
        } else if read as u64 == LONGEST {
            let column = 1;
            let message = format!("the line is longer than {LONGEST} bytes");
            return Err(self.fault(column, message));
        }
        match String::from_utf8(bytes) {
            Ok(text) => Ok(Some((self.number, text))),
            Err(error) => {
                let good = &error.as_bytes()[..error.utf8_error().valid_up_to()];
                let column = String::from_utf8_lossy(good).chars().count() + 1;
                Err(self.fault(column, "this is no text: the byte is not UTF-8".into()))
            }
        }
    }

    fn fault(&self, column: usize, message: String) -> Trouble {
        Trouble::Fault(Fault {
            line: self.number,
            column,
            message,
        })
    }
}

#[cfg(test)]
mod tests {
    use super::{LONGEST, Lines, Trouble};

    /// The lines of a text, and the fault that ends them.
    fn read(text: &[u8]) -> (Vec<(usize, String)>, Option<String>) {
        let mut lines = Lines::new(text);
        let mut all = Vec::new();
        loop {
            match lines.next_line() {
                Ok(Some(line)) => all.push(line),
                Ok(None) => return (all, None),
                Err(Trouble::Fault(fault)) => return (all, Some(fault.to_string())),
                Err(Trouble::Io(error)) => panic!("{error}"),
            }
        }
    }

    #[test]
    fn lines_have_their_numbers() {
        let all = ["a", "", "b", "c"];
        let all = (1..).zip(all.map(str::to_string)).collect();
        assert_eq!(read(b"a\n\r\nb\r\nc"), (all, None));
        assert_eq!(read(b""), (vec![], None));
    }

    #[test]
    fn what_is_no_text_is_told_by_its_place() {
        let (lines, fault) = read(b"a\n\xC3\xA9b\xFFc\n");
        assert_eq!(lines, [(1, "a".to_string())]);
        let fault = fault.expect("a byte that is no UTF-8");
        assert!(fault.starts_with("2:3: "), "{fault}");
    }

    #[test]
    fn a_line_may_be_so_long_and_no_longer() {
        let mut text = vec![b'x'; LONGEST as usize - 1];
        text.push(b'\n');
        assert_eq!(read(&text).1, None);
        text.insert(0, b'x');
        let fault = read(&text).1.expect("a line too long");
        assert!(fault.starts_with("1:1: "), "{fault}");
    }
}
