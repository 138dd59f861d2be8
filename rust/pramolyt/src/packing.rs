//! The two editions of the list file, and the way from each to the other.

use core::error::Error;
use core::fmt;

use crate::ffi;
use crate::list::ENTRY_BYTES;

/// Entries of a group of edition 2, and its bytes.
const GROUP_ENTRIES: usize = 3;
const GROUP_BYTES: usize = 14;

/// What [`pack`] and [`unpack`] answer. Where several grounds of refusal hold, it is the one with the lowest number.
///
/// In every refusal the whole output stays as it was.
#[derive(Clone, Copy, Debug, PartialEq, Eq)]
#[must_use = "a file may be refused"]
pub enum FileAnswer {
    /// 0: done.
    Done {
        /// The bytes written, from the front of the output on. Those past them stay.
        written: usize,
    },
    /// 2: the input is not of whole entries or groups, or the output is too short.
    WrongSize,
    /// 3: no input bytes.
    NoEntries,
    /// 4: more than 4,096 entries.
    TooMany,
    /// 6: the file has an illegal entry.
    IllegalEntry {
        /// The first one. In edition 2 a place counts three entries to a group, missing ones too.
        place: u64,
    },
    /// 10: the file is not of edition 2. A zero bit is set, a 31 stands where an entry belongs, or it has data.
    MalformedFile,
}

impl FileAnswer {
    /// What the library wrote. It answers with no other numbers.
    fn from_report(number: u32, place: u64, written: u64) -> FileAnswer {
        match (number, place, written) {
            (0, 0, written) => FileAnswer::Done {
                written: written as usize,
            },
            (2, 0, 0) => FileAnswer::WrongSize,
            (3, 0, 0) => FileAnswer::NoEntries,
            (4, 0, 0) => FileAnswer::TooMany,
            (6, place, 0) => FileAnswer::IllegalEntry { place },
            (10, 0, 0) => FileAnswer::MalformedFile,
            _ => unreachable!("answer {number}, place {place}, written {written}"),
        }
    }

    /// The paper's number: 0, 2, 3, 4, 6 or 10.
    pub fn number(self) -> u32 {
        match self {
            FileAnswer::Done { .. } => 0,
            FileAnswer::WrongSize => 2,
            FileAnswer::NoEntries => 3,
            FileAnswer::TooMany => 4,
            FileAnswer::IllegalEntry { .. } => 6,
            FileAnswer::MalformedFile => 10,
        }
    }

    /// The place of the first illegal entry; 0 in any other answer.
    pub fn place(self) -> u64 {
        match self {
            FileAnswer::IllegalEntry { place } => place,
            _ => 0,
        }
    }

    /// The bytes written; 0 in a refusal.
    pub fn written(self) -> usize {
        match self {
            FileAnswer::Done { written } => written,
            _ => 0,
        }
    }

    /// The bytes written, a refusal as the error.
    pub fn ok(self) -> Result<usize, FileAnswer> {
        match self {
            FileAnswer::Done { written } => Ok(written),
            refusal => Err(refusal),
        }
    }
}

impl fmt::Display for FileAnswer {
    fn fmt(&self, f: &mut fmt::Formatter<'_>) -> fmt::Result {
        match self {
            FileAnswer::Done { written } => write!(f, "done, {written} bytes"),
            FileAnswer::WrongSize => write!(
                f,
                "the input is not of whole entries or groups, or the output is too short"
            ),
            FileAnswer::NoEntries => write!(f, "the file has no entries"),
            FileAnswer::TooMany => write!(f, "the file has more than 4096 entries"),
            FileAnswer::IllegalEntry { place } => {
                write!(f, "entry {place} is illegal; the file was not converted")
            }
            FileAnswer::MalformedFile => write!(
                f,
                "the file is not of edition 2: a zero bit, a missing entry or its data is wrong"
            ),
        }
    }
}

impl Error for FileAnswer {}

/// Bytes of a list of so many entries, which is a file of edition 1 too.
pub const fn list_size(entries: usize) -> usize {
    entries.saturating_mul(ENTRY_BYTES)
}

/// Bytes of a list of so many entries in edition 2.
pub const fn packed_size(entries: usize) -> usize {
    entries.div_ceil(GROUP_ENTRIES).saturating_mul(GROUP_BYTES)
}

/// Edition 1 to edition 2, three entries in 14 bytes. A file has 1 to 4,096 entries, and `output` at least [`packed_size`]
/// bytes. Entries are judged as by [`Board::post`](crate::Board::post).
///
/// ```
/// use pramolyt::{FileAnswer, list_size, pack, packed_size, unpack};
///
/// // FORE 7; CMD a solid LINE, raster code copy; XY0 (0, 0); XY1 (4, 2)
/// let line = [8, 0, 0, 0, 7, 0, 0x23, 0x80, 0, 0, 0x48, 0, 0, 0, 0, 0x60, 0, 4, 0, 2];
/// let mut file = [0; packed_size(4)];
/// let written = pack(&line, &mut file).ok()?;
/// assert_eq!(written, 28);
///
/// let mut list = [0; list_size(4)];
/// assert_eq!(unpack(&file[..written], &mut list), FileAnswer::Done { written: 20 });
/// assert_eq!(list, line);
/// # Ok::<(), FileAnswer>(())
/// ```
pub fn pack(input: &[u8], output: &mut [u8]) -> FileAnswer {
    converted(ffi::pramolyt_pack, input, output)
}

/// Edition 2 to edition 1. A file has three entries for each 14 bytes, less the missing ones at its end, and `output` at least
/// [`list_size`] bytes. A file that is accepted is the one that [`pack`] makes of its list. Into list memory the list goes by
/// [`Board::store`](crate::Board::store).
pub fn unpack(input: &[u8], output: &mut [u8]) -> FileAnswer {
    converted(ffi::pramolyt_unpack, input, output)
}

/// A conversion of the C interface: written, place, input, output.
type Convert = unsafe extern "C" fn(*mut u64, *mut u64, *const u8, usize, *mut u8, usize) -> u32;

fn converted(convert: Convert, input: &[u8], output: &mut [u8]) -> FileAnswer {
    let (mut written, mut place) = (u64::MAX, u64::MAX);
    let (from, to) = (input.as_ptr(), output.as_mut_ptr());
    // SAFETY: pointers and lengths are those of live memory; output is borrowed alone, so nothing overlaps it.
    let number = unsafe {
        convert(
            &mut written,
            &mut place,
            from,
            input.len(),
            to,
            output.len(),
        )
    };
    FileAnswer::from_report(number, place, written)
}

#[cfg(test)]
mod tests {
    use std::string::ToString;
    use std::vec;
    use std::vec::Vec;

    use super::{FileAnswer, list_size, pack, packed_size, unpack};
    use crate::list::{Entry, MAX_ENTRIES, Register};

    /// FORE 7; CMD a solid LINE, raster code copy; XY0 (0, 0); XY1 (4, 2).
    const LINE: [u8; 20] = [
        8, 0, 0, 0, 7, 0, 0x23, 0x80, 0, 0, 0x48, 0, 0, 0, 0, 0x60, 0, 4, 0, 2,
    ];
    /// The same in edition 2: registers 1, 0 and 9, then 12 and two 31s.
    const PACKED: [u8; 28] = [
        0x04, 0x09, 0, 0, 0, 7, 0x23, 0x80, 0, 0, 0, 0, 0, 0, //
        0x33, 0xFF, 0, 4, 0, 2, 0, 0, 0, 0, 0, 0, 0, 0,
    ];

    /// A list of so many entries, each with a word of its own.
    fn list(entries: usize) -> Vec<u8> {
        (0..entries)
            .flat_map(|k| Entry::new(Register::Lpat, k as u32).to_bytes())
            .collect()
    }

    /// The answer, and the output after the call.
    fn called(
        convert: fn(&[u8], &mut [u8]) -> FileAnswer,
        input: &[u8],
        room: usize,
    ) -> (FileAnswer, Vec<u8>) {
        let mut output = vec![0xA5; room];
        (convert(input, &mut output), output)
    }

    /// The packed line with one byte changed.
    fn with(at: usize, byte: u8) -> [u8; 28] {
        let mut file = PACKED;
        file[at] = byte;
        file
    }

    #[test]
    fn the_line_in_both_editions() {
        let (answer, file) = called(pack, &LINE, 30);
        assert_eq!(answer, FileAnswer::Done { written: 28 });
        assert_eq!((&file[..28], &file[28..]), (&PACKED[..], &[0xA5; 2][..]));
        let (answer, list) = called(unpack, &PACKED, 21);
        assert_eq!(answer, FileAnswer::Done { written: 20 });
        assert_eq!((&list[..20], &list[20..]), (&LINE[..], &[0xA5][..]));
    }

    #[test]
    fn lists_come_back() {
        for entries in [1, 2, 3, 4, 5, MAX_ENTRIES - 1, MAX_ENTRIES] {
            let list = list(entries);
            let (answer, file) = called(pack, &list, packed_size(entries));
            assert_eq!(answer.ok(), Ok(file.len()));
            let (answer, back) = called(unpack, &file, list_size(entries));
            assert_eq!(answer.ok(), Ok(back.len()));
            assert_eq!(back, list);
        }
    }

    #[test]
    fn sizes() {
        let sizes = [0, 1, 3, 4, MAX_ENTRIES].map(|n| (list_size(n), packed_size(n)));
        assert_eq!(
            sizes,
            [(0, 0), (5, 14), (15, 14), (20, 28), (20_480, 19_124)]
        );
        assert_eq!(packed_size(usize::MAX), usize::MAX);
    }

    #[test]
    fn a_refusal_leaves_the_output() {
        let refusals: [(FileAnswer, Vec<u8>); 7] = [
            called(pack, &LINE[1..], 28),
            called(pack, &LINE, 27),
            called(pack, &[], 9),
            called(pack, &list(MAX_ENTRIES + 1), packed_size(MAX_ENTRIES + 1)),
            called(unpack, &PACKED, 19),
            called(unpack, &[], 9),
            called(unpack, &with(27, 1), 20),
        ];
        let answers = refusals.each_ref().map(|(answer, _)| answer.number());
        assert_eq!(answers, [2, 2, 3, 4, 2, 3, 10]);
        for (answer, output) in refusals {
            assert_eq!((answer.written(), answer.place()), (0, 0));
            assert!(output.iter().all(|&byte| byte == 0xA5));
        }
    }

    #[test]
    fn malformed_files_and_illegal_entries() {
        for (at, byte) in [(0, 0x84), (14, 0xB3), (20, 1), (27, 1), (15, 0xE0)] {
            assert_eq!(
                called(unpack, &with(at, byte), 30).0,
                FileAnswer::MalformedFile
            );
        }
        // register 13, before a zero bit that is set
        let illegal = called(unpack, &with(14, 0xB7), 30).0;
        assert_eq!(illegal, FileAnswer::IllegalEntry { place: 3 });
        assert_eq!((illegal.number(), illegal.place()), (6, 3));
    }

    #[test]
    fn answers_are_told_in_words() {
        assert_eq!(
            FileAnswer::Done { written: 28 }.to_string(),
            "done, 28 bytes"
        );
        assert_eq!(
            FileAnswer::IllegalEntry { place: 3 }.to_string(),
            "entry 3 is illegal; the file was not converted"
        );
        assert_eq!(FileAnswer::TooMany.ok(), Err(FileAnswer::TooMany));
    }
}
