//! `asm`: the text of `dis`, or one written by hand, as entries.

use std::collections::HashSet;
use std::fmt::Write as _;
use std::io::BufRead;

use call_log::{Fault, Lines, Trouble};
use pramolyt::list::ENTRY_BYTES;

use crate::args::Given;
use crate::dis::{write_digits, write_entry};
use crate::failure::Failure;
use crate::fields;
use crate::files::{Input, MOST_BYTES, write_file};
use crate::names::REGISTERS;
use crate::progress::Progress;
use crate::tokens::Tokens;

/// What a text says.
#[derive(Debug, Default)]
pub struct Assembled {
    /// The entries' bytes.
    pub entries: Vec<u8>,
    /// The labels, each with the entry that follows it.
    labels: Vec<(String, usize)>,
    names: HashSet<String>,
}

impl Assembled {
    fn count(&self) -> usize {
        self.entries.len() / ENTRY_BYTES
    }

    /// A line for each label: its name, the start and the count of the entries up to the next label.
    fn label_table(&self) -> String {
        let starts = self.labels.iter().map(|label| label.1);
        let ends = starts.skip(1).chain([self.count()]);
        let rows = self.labels.iter().zip(ends);
        rows.map(|((name, start), end)| format!("{name} {start} {}\n", end - start))
            .collect()
    }

    /// Takes a line.
    fn take(&mut self, mut tokens: Tokens) -> Result<(), Fault> {
        if tokens.peek_at(1) == Some(":") {
            self.take_label(&tokens)?;
            tokens.skip();
            tokens.skip();
        }
        if tokens.peek().is_none() {
            return Ok(());
        }
        let digits = take_digits(&mut tokens);
        let start = tokens.fault(String::new());
        let entry = match (digits, tokens.peek()) {
            (Some(digits), None) => digits,
            (None, _) => read_entry(&mut tokens)?,
            (Some(digits), Some(_)) => {
                let entry = read_entry(&mut tokens)?;
                agree(digits, entry, start)?;
                digits
            }
        };
        if let Some(token) = tokens.peek() {
            return Err(tokens.fault(format!("'{token}' is too much")));
        }
        if self.entries.len() + ENTRY_BYTES > MOST_BYTES {
            let most = MOST_BYTES / ENTRY_BYTES;
            return Err(tokens.fault(format!("there are more than {most} entries")));
        }
        self.entries.extend(entry);
        Ok(())
    }

    fn take_label(&mut self, tokens: &Tokens) -> Result<(), Fault> {
        let name = tokens.peek().unwrap_or("");
        let letter = |character: char| character.is_ascii_alphabetic() || character == '_';
        let inside = |character: char| letter(character) || character.is_ascii_digit();
        if !name.starts_with(letter) || !name.chars().all(inside) {
            let message = format!("'{name}' is no label, which is letters, digits and _");
            return Err(tokens.fault(message));
        }
        if REGISTERS.iter().any(|row| row.1.eq_ignore_ascii_case(name)) {
            return Err(tokens.fault(format!("'{name}' is a register and no label")));
        }
        if !self.names.insert(name.into()) {
            return Err(tokens.fault(format!("the label '{name}' stands here a second time")));
        }
        self.labels.push((name.into(), self.count()));
        Ok(())
    }
}

/// Takes the digits of an entry, where the line has them, and its place before them, which is not looked at.
fn take_digits(tokens: &mut Tokens) -> Option<[u8; ENTRY_BYTES]> {
    let place = tokens.peek()?.bytes().all(|byte| byte.is_ascii_digit());
    if let (true, Some(digits)) = (place, tokens.peek_at(1).and_then(digits_of)) {
        tokens.skip();
        tokens.skip();
        return Some(digits);
    }
    let digits = digits_of(tokens.peek()?)?;
    tokens.skip();
    Some(digits)
}

/// The bytes of ten hex digits.
fn digits_of(token: &str) -> Option<[u8; ENTRY_BYTES]> {
    let all_digits = token.bytes().all(|byte| byte.is_ascii_hexdigit());
    if token.len() != 2 * ENTRY_BYTES || !all_digits {
        return None;
    }
    let number = u64::from_str_radix(token, 16).ok()?;
    let [.., a, b, c, d, e] = number.to_be_bytes();
    Some([a, b, c, d, e])
}

/// Reads a register and its fields.
fn read_entry(tokens: &mut Tokens) -> Result<[u8; ENTRY_BYTES], Fault> {
    let rows = (0..).zip(REGISTERS).map(|(at, row)| (at, row.1));
    let Some(row) = tokens.named(rows) else {
        let token = tokens.peek().unwrap_or("");
        return Err(tokens.fault(format!("'{token}' is no register and no ten hex digits")));
    };
    let (register, name, form) = REGISTERS[row as usize];
    let word = fields::read(form, name, tokens)?;
    Ok(pramolyt::list::Entry::new(register, word).to_bytes())
}

/// The digits of a line decide; its fields, at this place, are to say the same.
fn agree(
    digits: [u8; ENTRY_BYTES],
    entry: [u8; ENTRY_BYTES],
    mut place: Fault,
) -> Result<(), Fault> {
    if digits == entry {
        return Ok(());
    }
    let (mut said, mut read) = (String::new(), String::new());
    write_entry(digits, &mut said);
    if said.is_empty() {
        said.push_str("no register's entry");
    }
    write_digits(entry, &mut read);
    write!(
        place.message,
        "the fields are {read}, the digits say {said}; leave one of them out"
    )
    .expect("a String takes all");
    Err(place)
}

/// The entries of a text.
pub fn assemble(input: impl BufRead) -> Result<Assembled, Trouble> {
    let mut lines = Lines::new(input);
    let mut assembled = Assembled::default();
    let mut progress = Progress::new("asm");
    while let Some((number, text)) = lines.next_line()? {
        assembled.take(Tokens::of(number, &text))?;
        if number % 4_096 == 0 {
            progress.tick(|| format!("{number} lines"));
        }
    }
    Ok(assembled)
}

pub fn run(given: &Given) -> Result<u8, Failure> {
    let input = Input::open(&given.file)?;
    let name = input.name.clone();
    let assembled =
        assemble(input.buffered()).map_err(|trouble| Failure::reading_text(&name, trouble))?;
    if let Some(labels) = given.value("labels") {
        write_file(labels, assembled.label_table().as_bytes(), false)?;
    }
    write_file(given.output(), &assembled.entries, true)?;
    Ok(0)
}

#[cfg(test)]
mod tests {
    use super::{Assembled, assemble};
    use call_log::Trouble;

    fn assembled(text: &str) -> Result<Assembled, String> {
        assemble(text.as_bytes()).map_err(|trouble| match trouble {
            Trouble::Fault(fault) => fault.to_string(),
            Trouble::Io(error) => panic!("{error}"),
        })
    }

    #[test]
    fn one_entry_in_many_ways() {
        for text in [
            "XY1 (4, 2)",
            "xy1(4,2)",
            "XY1 ( 0x4 , 2 ) # the end",
            "6000040002",
            "  3  6000040002  XY1 (4, 2)",
            "99 6000040002",
            "end: XY1 (4, 2)",
            "end:\n\n# a comment\r\nXY1 (4, 2)\r\n",
            "1234567890 6000040002",
        ] {
            let entries = assembled(text).expect("an entry").entries;
            assert_eq!(entries, [0x60, 0, 4, 0, 2], "{text}");
        }
        assert_eq!(assembled("CMD NOOP").unwrap().entries, [0; 5]);
        let line = assembled("cmd line COPY solid clip").unwrap().entries;
        assert_eq!(line, [0, 0x23, 0x82, 0, 0]);
        assert_eq!(assembled("CMD 2 3 SOLID CLIP").unwrap().entries, line);
    }

    #[test]
    fn labels_name_spans() {
        let text = "FORE 1\nframe: FORE 2\nFORE 3\nname:\nlast: FORE 4\n";
        let table = assembled(text).unwrap().label_table();
        assert_eq!(table, "frame 1 2\nname 3 0\nlast 3 1\n");
    }

    /// Each text has this fault.
    fn have(faults: &[(&str, &str)]) {
        for &(text, fault) in faults {
            assert_eq!(assembled(text).map(|done| done.entries), Err(fault.into()));
        }
    }

    #[test]
    fn faults_of_fields_are_told_by_their_place() {
        have(&[
            ("FOUR 7", "1:1: 'FOUR' is no register and no ten hex digits"),
            ("FORE", "1:5: a number for FORE is missing"),
            ("FORE seven", "1:6: 'seven' is not a number for FORE"),
            ("FORE 7 8", "1:8: '8' is too much"),
            ("\n  XY1 (4 2)", "2:10: '2' is not ','"),
            ("XY1 (4, 2", "1:10: ')' is missing"),
            ("XY1 (32768, 2)", "1:6: '32768' is not -32768 to 32767"),
            ("XY2 12 3", "1:8: '3' is not 'by'"),
            (
                "XY3 middle",
                "1:5: 'middle' is not a direction such as upper-left",
            ),
            ("CMD LIN copy", "1:5: 'LIN' is not an opcode such as LINE"),
            ("CMD LINE", "1:9: a raster code such as copy is missing"),
            ("CMD LINE 16", "1:10: '16' is not 0 to 15"),
            (
                "CMD LINE copy SOILD",
                "1:15: 'SOILD' is not a flag such as SOLID",
            ),
            ("PCTRL length 33 scale 1", "1:14: '33' is not 1 to 32"),
            ("PCTRL scale 1", "1:7: 'scale' is not 'length'"),
        ]);
    }

    #[test]
    fn faults_of_digits_and_labels_are_told_by_their_place() {
        have(&[
            (
                "080000000 FORE 7",
                "1:1: '080000000' is no register and no ten hex digits",
            ),
            (
                "0 0800000007 FORE 8",
                "1:14: the fields are 0800000008, the digits say FORE 7; leave one of them out",
            ),
            (
                "0 6800000007 FORE 8",
                "1:14: the fields are 0800000008, the digits say no register's entry; leave one of them out",
            ),
            (
                "a: FORE 1\na: FORE 2",
                "2:1: the label 'a' stands here a second time",
            ),
            ("fore: FORE 1", "1:1: 'fore' is a register and no label"),
            (
                "4th: FORE 1",
                "1:1: '4th' is no label, which is letters, digits and _",
            ),
        ]);
    }
}
