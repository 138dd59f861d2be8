//! `dis`: what a list file says, an entry a line.

use std::fmt::Write as _;

use pramolyt::list::{ENTRY_BYTES, MAX_ENTRIES};

use crate::args::Given;
use crate::failure::Failure;
use crate::fields;
use crate::files::{Input, Output};
use crate::judge::illegal_places;
use crate::names;
use crate::progress::Progress;
use crate::reasons::reason;

/// Writes the register and the fields of an entry; nothing where there is no such register.
fn write_fields(entry: [u8; ENTRY_BYTES], out: &mut String) {
    let [first, a, b, c, d] = entry;
    if let Some(&(_, name, form)) = names::register(first / 8) {
        out.push_str(name);
        out.push(' ');
        let word = u32::from_be_bytes([a, b, c, d]);
        fields::write(form, word, out).expect("a String takes all");
    }
}

/// Whether register and fields leave something out: the bits between the register's number and the word.
fn has_spare_bits(entry: [u8; ENTRY_BYTES]) -> bool {
    entry[0] & 7 != 0
}

/// Writes the register and the fields of an entry where they say it all, else nothing.
pub fn write_entry(entry: [u8; ENTRY_BYTES], out: &mut String) {
    if !has_spare_bits(entry) {
        write_fields(entry, out);
    }
}

/// Writes the ten hex digits of an entry.
pub fn write_digits(entry: [u8; ENTRY_BYTES], out: &mut String) {
    for byte in entry {
        write!(out, "{byte:02X}").expect("a String takes all");
    }
}

/// How a line is written: with place and digits, or with the fields alone where they say it all.
#[derive(Clone, Copy)]
struct Layout {
    bare: bool,
}

impl Layout {
    /// Writes a line.
    fn write(self, place: u64, entry: [u8; ENTRY_BYTES], illegal: bool, out: &mut String) {
        let start = out.len();
        if !self.bare {
            write!(out, "{place:>4}  ").expect("a String takes all");
            write_digits(entry, out);
            out.push_str("  ");
        }
        write_entry(entry, out);
        if self.bare && out.len() == start {
            write_digits(entry, out);
        }
        if illegal {
            let text = out.trim_end().len();
            out.truncate(text);
            out.push_str("  # ");
            if has_spare_bits(entry) && names::register(entry[0] / 8).is_some() {
                write_fields(entry, out);
                out.push_str(", ");
            }
            let why = reason(entry);
            write!(out, "illegal: {why}").expect("a String takes all");
        }
        out.push('\n');
    }

    /// Writes the lines of these entries, of which the first has this place.
    fn write_all(self, first: u64, entries: &[u8], out: &mut String) {
        let mut illegal = illegal_places(entries).into_iter().peekable();
        for (at, entry) in entries.chunks_exact(ENTRY_BYTES).enumerate() {
            let entry = entry.try_into().expect("an entry");
            let refused = illegal.next_if_eq(&at).is_some();
            self.write(first + at as u64, entry, refused, out);
        }
    }
}

/// Hands the lines of all entries of the input to `write`, and gives their number and how many bytes are left over.
fn disassemble(
    mut input: Input,
    layout: Layout,
    mut write: impl FnMut(&[u8]) -> Result<(), Failure>,
) -> Result<(u64, usize), Failure> {
    let mut progress = Progress::beside_output("dis");
    let mut text = String::new();
    let mut place = 0;
    loop {
        let batch = input.read_up_to(ENTRY_BYTES * MAX_ENTRIES)?;
        let whole = batch.len() / ENTRY_BYTES;
        text.clear();
        layout.write_all(place, &batch[..ENTRY_BYTES * whole], &mut text);
        write(text.as_bytes())?;
        place += whole as u64;
        progress.tick(|| format!("{place} entries"));
        if whole < MAX_ENTRIES {
            return Ok((place, batch.len() % ENTRY_BYTES));
        }
    }
}

pub fn run(given: &Given) -> Result<u8, Failure> {
    let layout = Layout {
        bare: given.has("bare"),
    };
    let input = Input::open(&given.file)?;
    let name = input.name.clone();
    let mut output = Output::new();
    let (entries, left) = disassemble(input, layout, |text| output.write(text))?;
    output.flush()?;
    match left {
        0 => Ok(0),
        left => Err(Failure::Refused(format!(
            "{name}: entry {entries} has {left} of 5 bytes, then the file ends"
        ))),
    }
}

#[cfg(test)]
mod tests {
    use super::{Layout, disassemble};
    use crate::asm::assemble;
    use crate::files::Input;
    use compare::lists::{Size, doubtful_entry, legal_entry};
    use compare::random::Random;
    use std::io::Cursor;

    /// The text of a file.
    fn text_of(file: &[u8], bare: bool) -> String {
        let input = Input {
            name: "a test".into(),
            read: Box::new(Cursor::new(file.to_vec())),
        };
        let mut text = Vec::new();
        let write = |lines: &[u8]| {
            text.extend(lines);
            Ok(())
        };
        disassemble(input, Layout { bare }, write).expect("memory");
        String::from_utf8(text).expect("text")
    }

    #[test]
    fn asm_of_dis_is_the_same_file() {
        let mut random = Random::new(5);
        let size = Size {
            width: 320,
            height: 200,
        };
        for at in 0..400 {
            let mut file = Vec::new();
            for _ in 0..random.below(300) {
                file.extend(match at % 4 {
                    0 => legal_entry(&mut random, size),
                    1 => doubtful_entry(&mut random, size),
                    _ => std::array::from_fn(|_| random.word() as u8),
                });
            }
            for bare in [false, true] {
                let text = text_of(&file, bare);
                let assembled = assemble(text.as_bytes()).expect("the text of dis");
                assert_eq!(assembled.entries, file, "{text}");
            }
        }
    }

    #[test]
    fn batches_do_not_show() {
        let entry = [8, 0, 0, 0, 7];
        let text = text_of(&entry.repeat(10_000), true);
        assert_eq!(text, "FORE 7\n".repeat(10_000));
        let text = text_of(&entry.repeat(4_097), false);
        assert!(text.ends_with("\n4096  0800000007  FORE 7\n"));
    }
}
