//! `pack` and `unpack`: a list file from one edition to the other.

use pramolyt::list::{ENTRY_BYTES, MAX_ENTRIES};
use pramolyt::{FileAnswer, list_size, packed_size};

use crate::args::Given;
use crate::failure::Failure;
use crate::files::{Input, write_file};
use crate::posting;
use crate::reasons::reason;

const GROUP_ENTRIES: usize = 3;
const GROUP_BYTES: usize = 14;

/// Converts the file. `why` says why its entry at a place is illegal.
fn convert(
    given: &Given,
    most: usize,
    conversion: fn(&[u8], &mut [u8]) -> FileAnswer,
    why: fn(&[u8], u64) -> String,
) -> Result<u8, Failure> {
    let input = Input::open(&given.file)?;
    let name = input.name.clone();
    let file = input.read_all()?;
    let mut output = vec![0; most];
    match conversion(&file, &mut output) {
        FileAnswer::Done { written } => {
            write_file(given.output(), &output[..written], true)?;
            Ok(0)
        }
        FileAnswer::IllegalEntry { place } => Err(Failure::Refused(format!(
            "{name}: answer 6 at entry {place}: {}",
            why(&file, place)
        ))),
        FileAnswer::WrongSize => Err(Failure::Refused(format!(
            "{name}: answer 2: {} bytes are no whole entries or groups",
            file.len()
        ))),
        refused => Err(Failure::Refused(format!(
            "{name}: answer {}: {refused}",
            refused.number()
        ))),
    }
}

pub fn pack(given: &Given) -> Result<u8, Failure> {
    let most = packed_size(MAX_ENTRIES);
    convert(given, most, pramolyt::pack, posting::illegal)
}

pub fn unpack(given: &Given) -> Result<u8, Failure> {
    let most = list_size(MAX_ENTRIES);
    convert(given, most, pramolyt::unpack, why_in_group)
}

/// Why the entry at this place of an edition 2 file is illegal.
fn why_in_group(file: &[u8], place: u64) -> String {
    let (group, at) = (
        place as usize / GROUP_ENTRIES,
        place as usize % GROUP_ENTRIES,
    );
    match file.chunks_exact(GROUP_BYTES).nth(group) {
        Some(group) => reason(entry_of(group, at)),
        None => String::new(),
    }
}

/// The entry of a group: its number is five of the first 16 bits, its word four bytes.
fn entry_of(group: &[u8], at: usize) -> [u8; ENTRY_BYTES] {
    let numbers = u16::from_be_bytes([group[0], group[1]]);
    let number = (numbers >> (5 * (GROUP_ENTRIES - 1 - at))) & 31;
    let word = &group[2 + 4 * at..][..4];
    [(number << 3) as u8, word[0], word[1], word[2], word[3]]
}
