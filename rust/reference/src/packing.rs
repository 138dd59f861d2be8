//! "Second edition of the list file" (document 02, R-4): edition 1 to edition 2, and
//! back.

use crate::entries::{entry_at, legal, ENTRY_BYTES, MOST_ENTRIES};

/// "Edition 2 packs three entries in a group".
const GROUP_ENTRIES: usize = 3;

/// "14 bytes in all".
const GROUP_BYTES: usize = 14;

/// "missing entries at its end have number 31 and data 0".
const MISSING: u32 = 31;

/// The answer's number, the place of the first illegal entry and "the bytes written".
/// The place is zero but in 6, the bytes written in every refusal.
#[derive(Clone, Copy, PartialEq, Eq, Debug)]
pub struct Conversion {
    pub number: u32,
    pub place: u64,
    pub written: u64,
}

impl Conversion {
    fn refused(number: u32) -> Conversion {
        Conversion {
            number,
            place: 0,
            written: 0,
        }
    }

    fn illegal(place: usize) -> Conversion {
        Conversion {
            place: place as u64,
            ..Conversion::refused(6)
        }
    }

    fn done(written: usize) -> Conversion {
        Conversion {
            written: written as u64,
            ..Conversion::refused(0)
        }
    }
}

/// Edition 1 to edition 2.
pub fn pack(input: &[u8], output: &mut [u8]) -> Conversion {
    let count = input.len() / ENTRY_BYTES;
    let needed = count.div_ceil(GROUP_ENTRIES) * GROUP_BYTES;
    if !input.len().is_multiple_of(ENTRY_BYTES) || output.len() < needed {
        return Conversion::refused(2);
    }
    if input.is_empty() {
        return Conversion::refused(3);
    }
    if count > MOST_ENTRIES as usize {
        return Conversion::refused(4);
    }
    let mut entries = Vec::new();
    for place in 0..count {
        match entry_at(input, place) {
            Some((register, data)) => entries.push((register as u32, data)),
            None => return Conversion::illegal(place),
        }
    }
    let packed: Vec<u8> = entries.chunks(GROUP_ENTRIES).flat_map(group).collect();
    put(output, &packed)
}

/// Edition 2 to edition 1.
pub fn unpack(input: &[u8], output: &mut [u8]) -> Conversion {
    if !input.len().is_multiple_of(GROUP_BYTES) {
        return Conversion::refused(2);
    }
    let groups: Vec<Group> = input.chunks(GROUP_BYTES).map(Group::read).collect();
    let positions: Vec<(u32, u32)> = groups.iter().flat_map(|group| group.entries).collect();
    let missing = groups.last().map_or(0, Group::missing);
    let count = positions.len() - missing;
    if output.len() < count * ENTRY_BYTES {
        return Conversion::refused(2);
    }
    if input.is_empty() {
        return Conversion::refused(3);
    }
    if count > MOST_ENTRIES as usize {
        return Conversion::refused(4);
    }
    let (present, absent) = positions.split_at(count);
    // "31s pass here, and a place counts three a group"
    let illegal =
        |&(register, data): &(u32, u32)| register != MISSING && !legal(register as usize, data);
    if let Some(place) = positions.iter().position(illegal) {
        return Conversion::illegal(place);
    }
    let zero_bits = groups.iter().all(|group| group.zero_bit == 0);
    let misplaced = present.iter().any(|&(register, _)| register == MISSING);
    let with_data = absent.iter().any(|&(_, data)| data != 0);
    // "a group has at least one entry"
    if !zero_bits || misplaced || with_data || missing == GROUP_ENTRIES {
        return Conversion::refused(10);
    }
    let list: Vec<u8> = present.iter().flat_map(entry).collect();
    put(output, &list)
}

/// A group as it is read.
struct Group {
    zero_bit: u32,
    entries: [(u32, u32); GROUP_ENTRIES],
}

impl Group {
    /// "one zero bit, three 5-bit register numbers, then three 32-bit data, most
    /// significant first"
    fn read(bytes: &[u8]) -> Group {
        let bits = bytes
            .iter()
            .fold(0, |bits: u128, &byte| bits << 8 | u128::from(byte));
        let field = |low: usize, width: usize| (bits >> low & ((1 << width) - 1)) as u32;
        Group {
            zero_bit: field(111, 1),
            entries: [
                (field(106, 5), field(64, 32)),
                (field(101, 5), field(32, 32)),
                (field(96, 5), field(0, 32)),
            ],
        }
    }

    /// "the 31s at the end" of it.
    fn missing(&self) -> usize {
        let last = self.entries.iter().rev();
        last.take_while(|(register, _)| *register == MISSING)
            .count()
    }
}

/// A group of one to three entries.
fn group(entries: &[(u32, u32)]) -> Vec<u8> {
    let at = |k: usize| entries.get(k).copied().unwrap_or((MISSING, 0));
    let registers = (0..GROUP_ENTRIES).fold(0, |bits, k| bits << 5 | u128::from(at(k).0));
    let bits = (0..GROUP_ENTRIES).fold(registers, |bits, k| bits << 32 | u128::from(at(k).1));
    let bytes = bits.to_be_bytes();
    bytes[bytes.len() - GROUP_BYTES..].to_vec()
}

/// "Bits 39..35 register, 34..32 zero, 31..0 data."
fn entry(&(register, data): &(u32, u32)) -> Vec<u8> {
    let bits = u64::from(register) << 35 | u64::from(data);
    bits.to_be_bytes()[8 - ENTRY_BYTES..].to_vec()
}

/// The bytes from the front of the output on; those past them stay.
fn put(output: &mut [u8], bytes: &[u8]) -> Conversion {
    output[..bytes.len()].copy_from_slice(bytes);
    Conversion::done(bytes.len())
}
