//! The two conversions of the list file (document 02, R-4), by the engine and by the reference, over random files, damaged
//! and cut ones among them. Answer, place, bytes written and every byte of the output must be equal, and a list that packs
//! must come back.

use crate::compared::Compared;
use crate::lists::{ENTRY, Size, doubtful_entry, legal_entry};
use crate::random::Random;
use pramolyt::FileAnswer;
use reference::Conversion;
use std::panic::{AssertUnwindSafe, catch_unwind};

/// The names of the conversions.
pub const WAYS: [&str; 2] = ["pack", "unpack"];

/// The answers that document 02 allows each conversion.
const ALLOWED: [&[usize]; 2] = [&[0, 2, 3, 4, 6], &[0, 2, 3, 4, 6, 10]];

/// Bytes of a group, and the entries in it.
const GROUP: usize = 14;
const THREE: usize = 3;

/// Entries of the longest list.
const MOST: usize = 4_096;

/// Bytes past the lent output, which no conversion may touch.
const GUARD: usize = 16;

/// The coordinates of the entries go by a board of this size.
const SIZE: Size = Size {
    width: 640,
    height: 480,
};

/// A conversion: input and output.
pub type Convert = fn(&[u8], &mut [u8]) -> Conversion;

/// Edition 1 to edition 2, and back, by [`WAYS`].
pub type Converter = [Convert; 2];

/// The engine's conversions.
pub const ENGINE: Converter = [
    |input, output| told(pramolyt::pack(input, output)),
    |input, output| told(pramolyt::unpack(input, output)),
];

fn told(answer: FileAnswer) -> Conversion {
    Conversion {
        number: answer.number(),
        place: answer.place(),
        written: answer.written() as u64,
    }
}

/// The reference's conversions.
pub const REFERENCE: Converter = [reference::pack, reference::unpack];

/// What came up.
#[derive(Default)]
pub struct Conversions {
    answers: [[u64; 11]; 2],
    /// Done with the longest list.
    longest: [u64; 2],
    /// Done edition 2 files by the entries missing in their last group.
    missing: [u64; THREE],
    /// Lists that came back.
    back: u64,
}

impl Compared for Conversions {
    const UNIT: &'static str = "file";
    const CALLS: &'static str = "conversions";
    const REPLAY: &'static str = "file";

    /// The error has the file whole, so nothing is printed before it.
    fn play(&mut self, seed: u64, _shows: bool) -> Result<(), String> {
        let outcome = catch_unwind(AssertUnwindSafe(|| play(seed, &ENGINE, self)));
        outcome.unwrap_or_else(|_| Err("a panic".to_string()))
    }

    /// All conversions of random files, those of lists that came back not counted.
    fn calls(&self) -> u64 {
        self.answers.iter().flatten().sum()
    }

    fn add(&mut self, other: &Conversions) {
        let pairs = self.answers.as_flattened_mut().iter_mut();
        let pairs = pairs.zip(other.answers.as_flattened());
        pairs.for_each(|(count, more)| *count += more);
        (0..2).for_each(|way| self.longest[way] += other.longest[way]);
        (0..THREE).for_each(|k| self.missing[k] += other.missing[k]);
        self.back += other.back;
    }

    fn coverage(&self) -> Vec<(String, bool)> {
        let mut checks = Vec::new();
        for (way, allowed) in ALLOWED.iter().enumerate() {
            for &number in *allowed {
                let name = format!("{} answers {number}", WAYS[way]);
                checks.push((name, self.answers[way][number] > 0));
            }
            let name = format!("{} of {MOST} entries", WAYS[way]);
            checks.push((name, self.longest[way] > 0));
        }
        for (missing, &count) in self.missing.iter().enumerate() {
            let name = format!("unpack with {missing} entries missing");
            checks.push((name, count > 0));
        }
        checks.push(("lists come back".into(), self.back > 0));
        checks
    }

    fn print(&self) {
        println!(
            "{} conversions, {} lists came back",
            self.calls(),
            self.back
        );
        print!("{:<13}", "answer");
        (0..11).for_each(|number| print!("{number:>10}"));
        println!();
        for (name, counts) in WAYS.iter().zip(&self.answers) {
            print!("{name:<13}");
            counts.iter().for_each(|count| print!("{count:>10}"));
            println!();
        }
        let [packed, unpacked] = self.longest;
        println!("{MOST} entries packed {packed}, unpacked {unpacked}");
        println!("unpacked by entries missing {:?}", self.missing);
    }
}

/// Converts one random list both ways, whole or damaged, by the engine and by the reference.
pub fn play(seed: u64, engine: &Converter, counts: &mut Conversions) -> Result<(), String> {
    let mut random = Random::new(seed);
    let list = list(&mut random);
    let packed = come_back(engine, &list, counts)?;
    for (way, file) in [list, packed].into_iter().enumerate() {
        let file = damaged(&mut random, way, file);
        let room = room(&mut random, way, &file);
        compare(&mut random, engine, way, &file, room, counts)?;
    }
    Ok(())
}

/// A legal list: short, about as long as may be, or of no entries.
fn list(random: &mut Random) -> Vec<u8> {
    let count = match random.weighted(&[200, 40, 4, 1]) {
        0 => 1 + random.below(12),
        1 => random.below(60),
        2 => 0,
        _ => MOST as u64 - 3 + random.below(7),
    };
    (0..count).flat_map(|_| legal_entry(random, SIZE)).collect()
}

/// The list in edition 2. Where it is one of 1 to 4,096 entries, packing and unpacking it gives it again.
fn come_back(engine: &Converter, list: &[u8], counts: &mut Conversions) -> Result<Vec<u8>, String> {
    let entries = list.len() / ENTRY;
    let mut packed = vec![0; entries.div_ceil(THREE) * GROUP];
    if !(1..=MOST).contains(&entries) {
        // too long or too short to pack: its groups one by one
        for (group, part) in packed.chunks_mut(GROUP).zip(list.chunks(THREE * ENTRY)) {
            REFERENCE[0](part, group);
        }
        return Ok(packed);
    }
    let mut back = vec![0; list.len()];
    let there = engine[0](list, &mut packed);
    let again = engine[1](&packed, &mut back);
    if there.number != 0 || again.number != 0 || back != list {
        return Err(format!(
            "{list:02X?} packs with {there:?}, unpacks with {again:?} and does not come back"
        ));
    }
    counts.back += 1;
    Ok(packed)
}

/// The file, most often with something wrong.
fn damaged(random: &mut Random, way: usize, mut file: Vec<u8>) -> Vec<u8> {
    for _ in 0..random.weighted(&[4, 4, 2, 1]) {
        if file.is_empty() {
            break;
        }
        match way {
            0 => spoil_list(random, &mut file),
            _ => spoil_groups(random, &mut file),
        }
    }
    if random.one_in(8) {
        let bytes = random.below(1 + GROUP as u64) as usize;
        if random.one_in(2) {
            file.truncate(file.len().saturating_sub(bytes));
        } else {
            file.extend(random.bytes(bytes));
        }
    }
    file
}

fn spoil_list(random: &mut Random, list: &mut [u8]) {
    let at = random.below((list.len() / ENTRY) as u64) as usize * ENTRY;
    let entry = &mut list[at..at + ENTRY];
    match random.below(4) {
        0 => entry[0] |= 1 << random.below(3),
        1 => entry[0] = (random.pick(&[13, 20, 30, 31]) << 3) as u8,
        2 => entry.copy_from_slice(&doubtful_entry(random, SIZE)),
        _ => flip(random, entry),
    }
}

fn spoil_groups(random: &mut Random, file: &mut Vec<u8>) {
    let groups = file.len() / GROUP;
    // the last group more often than the others
    let group = match random.below(2) {
        0 => groups - 1,
        _ => random.below(groups as u64) as usize,
    };
    let part = &mut file[group * GROUP..][..GROUP];
    let which = random.below(THREE as u64) as usize;
    match random.below(8) {
        0 => part[0] |= 0x80,
        1 => set_register(part, which, 31),
        2 => set_register(part, which, random.below(32) as u16),
        3 => part[2 + 4 * which..][..4].fill(0),
        4 => part[2 + 4 * which + random.below(4) as usize] ^= 1 << random.below(8),
        5 => flip(random, part),
        6 => (which..THREE).for_each(|which| set_register(part, which, 31)),
        _ => file.extend([0x7F, 0xFF].into_iter().chain([0; GROUP - 2])),
    }
}

fn set_register(group: &mut [u8], which: usize, register: u16) {
    let low = 10 - 5 * which;
    let head = u16::from_be_bytes([group[0], group[1]]);
    let head = head & !(31 << low) | register << low;
    group[..2].copy_from_slice(&head.to_be_bytes());
}

fn flip(random: &mut Random, bytes: &mut [u8]) {
    bytes[random.below(bytes.len() as u64) as usize] ^= 1 << random.below(8);
}

/// Bytes of output: what the file needs, more, one less, or any other number.
fn room(random: &mut Random, way: usize, file: &[u8]) -> usize {
    let most = file.len() * 5 / 4 + 2 * GROUP;
    let exact = match REFERENCE[way](file, &mut vec![0; most]) {
        done if done.number == 0 => done.written as usize,
        _ if way == 0 => (file.len() / ENTRY).div_ceil(THREE) * GROUP,
        _ => file.len() / GROUP * THREE * ENTRY,
    };
    match random.weighted(&[10, 6, 2, 1, 1]) {
        0 => exact,
        1 => exact + random.below(20) as usize,
        2 => exact.saturating_sub(1),
        3 => random.below(exact as u64 + 1) as usize,
        _ => most,
    }
}

/// One conversion by both, on equal outputs.
fn compare(
    random: &mut Random,
    engine: &Converter,
    way: usize,
    file: &[u8],
    room: usize,
    counts: &mut Conversions,
) -> Result<(), String> {
    let lent = random.bytes(room + GUARD);
    let call = |convert: Convert| {
        let mut output = lent.clone();
        let conversion = convert(file, &mut output[..room]);
        (conversion, output)
    };
    let ((ours, output), (theirs, expected)) = (call(engine[way]), call(REFERENCE[way]));
    let name = WAYS[way];
    let about = || format!("{name} of {file:02X?} into {room} bytes");
    if ours != theirs {
        let what = about();
        return Err(format!(
            "{what}: the engine answers {ours:?}, the reference {theirs:?}"
        ));
    }
    if let Some(at) = (0..lent.len()).find(|&at| output[at] != expected[at]) {
        let (byte, other, what) = (output[at], expected[at], about());
        return Err(format!(
            "{what}: byte {at}: the engine has {byte:02X}, the reference {other:02X}"
        ));
    }
    count(counts, way, file, theirs);
    Ok(())
}

fn count(counts: &mut Conversions, way: usize, file: &[u8], conversion: Conversion) {
    counts.answers[way][conversion.number as usize] += 1;
    if conversion.number != 0 {
        return;
    }
    let entries = match way {
        0 => file.len() / ENTRY,
        _ => conversion.written as usize / ENTRY,
    };
    counts.longest[way] += u64::from(entries == MOST);
    if way == 1 {
        counts.missing[file.len() / GROUP * THREE - entries] += 1;
    }
}

#[cfg(test)]
mod tests {
    use super::{Conversions, Converter, ENGINE, play};
    use crate::compared::Compared;
    use reference::{Conversion, pack, unpack};

    /// Whether some of the first files show a difference.
    fn found(engine: Converter) -> bool {
        let mut counts = Conversions::default();
        (0..20_000).any(|seed| play(seed, &engine, &mut counts).is_err())
    }

    #[test]
    fn all_that_has_to_come_up_does() {
        let mut counts = Conversions::default();
        for seed in 0..20_000 {
            assert_eq!(play(seed, &ENGINE, &mut counts), Ok(()));
        }
        for (name, came_up) in counts.coverage() {
            assert!(came_up, "{name}");
        }
    }

    #[test]
    fn an_output_changed_in_a_refusal_is_found() {
        fn writes(input: &[u8], output: &mut [u8]) -> Conversion {
            let conversion = unpack(input, output);
            if let (10, Some(byte)) = (conversion.number, output.first_mut()) {
                *byte ^= 1;
            }
            conversion
        }
        assert!(found([pack, writes]));
    }

    #[test]
    fn a_place_without_the_31s_is_found() {
        fn less(input: &[u8], output: &mut [u8]) -> Conversion {
            let mut conversion = unpack(input, output);
            let registers = input.chunks_exact(14).flat_map(|group| {
                let head = u16::from_be_bytes([group[0], group[1]]);
                [10, 5, 0].map(|low| head >> low & 31)
            });
            let before = registers.take(conversion.place as usize);
            conversion.place -= before.filter(|&register| register == 31).count() as u64;
            conversion
        }
        assert!(found([pack, less]));
    }

    #[test]
    fn too_many_before_too_short_is_found() {
        fn early(input: &[u8], output: &mut [u8]) -> Conversion {
            let mut conversion = pack(input, output);
            if conversion.number == 2 && input.len() > 5 * 4_096 {
                conversion.number = 4;
            }
            conversion
        }
        assert!(found([early, unpack]));
    }
}
