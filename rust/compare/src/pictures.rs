//! Exports and imports of pictures (document 02, R-9), by the engine and by the reference, on boards of all small sizes: pictures
//! as they are exported, written otherwise, and damaged. Answer, bytes written, record, output and buffer must be equal, and an
//! export that is imported must restore its buffer.

use crate::choose::extreme;
use crate::compared::Compared;
use crate::headers::{self, KINDS};
use crate::random::Random;
use crate::sides::{engine_report, export_report};
use crate::tiles::spoiled_kind;
use pramolyt::Board;
use reference::{Record, Report};
use std::panic::{AssertUnwindSafe, catch_unwind};

/// The names of the two calls.
const WAYS: [&str; 2] = ["export", "import"];

/// The answers that document 02 allows each.
const ALLOWED: [&[usize]; 2] = [&[0, 1, 2, 4], &[0, 1, 2, 7, 11]];

/// Every size up to this one, each way, comes up.
const SMALL: usize = 12;

/// Places of a header that are changed, those of the shortest.
const PLACES: usize = 11;

/// Bytes past the lent output, which no export may touch.
const GUARD: usize = 16;

/// Bytes of output: what the picture needs, one less, more, or any other number.
pub fn room(random: &mut Random, size: (u64, u64), pixels: usize) -> usize {
    let exact = headers::exported(size).len() + pixels;
    match random.weighted(&[6, 4, 4, 1, 1]) {
        0 => exact,
        1 => exact - 1,
        2 => exact + 1 + random.below(20) as usize,
        3 => random.below(exact as u64) as usize,
        _ => 0,
    }
}

/// What came up.
#[derive(Default)]
pub struct Pictures {
    answers: [[u64; 12]; 2],
    /// Exports and imports done, by size.
    sizes: [[[u64; SMALL]; SMALL]; 2],
    /// Exports done by the digits of width and of height.
    digits: [[u64; 4]; 2],
    /// Outputs with exactly the room of the picture, and with a byte less.
    exact: u64,
    one_less: u64,
    /// Exports done while a slot is taken.
    busy: u64,
    /// Calls with a tile in a record that is not malformed, and calls refused for their record's tile alone.
    held: [u64; 2],
    spoiled: [u64; 2],
    /// Imports to an idle board by kind and by whether they were done.
    kinds: [[u64; 2]; KINDS.len()],
    /// Bytes changed in an export's header, by place.
    places: [u64; PLACES],
    /// Buffers that came back.
    back: u64,
}

impl Compared for Pictures {
    const UNIT: &'static str = "picture";
    const CALLS: &'static str = "exports and imports";
    const REPLAY: &'static str = "picture";

    /// The error has the picture whole, so nothing is printed before it.
    fn play(&mut self, seed: u64, _shows: bool) -> Result<(), String> {
        let outcome = catch_unwind(AssertUnwindSafe(|| play(seed, self)));
        outcome.unwrap_or_else(|_| Err("a panic".to_string()))
    }

    /// All calls, those of buffers that came back not counted.
    fn calls(&self) -> u64 {
        self.answers.iter().flatten().sum()
    }

    fn add(&mut self, other: &Pictures) {
        let add = |counts: &mut [u64], others: &[u64]| {
            let pairs = counts.iter_mut().zip(others);
            pairs.for_each(|(count, more)| *count += more);
        };
        add(
            self.answers.as_flattened_mut(),
            other.answers.as_flattened(),
        );
        add(
            self.sizes.as_flattened_mut().as_flattened_mut(),
            other.sizes.as_flattened().as_flattened(),
        );
        add(self.digits.as_flattened_mut(), other.digits.as_flattened());
        self.exact += other.exact;
        self.one_less += other.one_less;
        self.busy += other.busy;
        add(&mut self.held, &other.held);
        add(&mut self.spoiled, &other.spoiled);
        add(self.kinds.as_flattened_mut(), other.kinds.as_flattened());
        add(&mut self.places, &other.places);
        self.back += other.back;
    }

    fn coverage(&self) -> Vec<(String, bool)> {
        let mut checks = Vec::new();
        for (way, allowed) in ALLOWED.iter().enumerate() {
            for &number in *allowed {
                let name = format!("{} answers {number}", WAYS[way]);
                checks.push((name, self.answers[way][number] > 0));
            }
            let name = format!("{} of every size up to {SMALL} by {SMALL}", WAYS[way]);
            let all = self.sizes[way].iter().flatten().all(|&count| count > 0);
            checks.push((name, all));
            let held = format!("{} with a tile held", WAYS[way]);
            checks.push((held, self.held[way] > 0));
            let spoiled = format!("{} is refused for the record's tile", WAYS[way]);
            checks.push((spoiled, self.spoiled[way] > 0));
        }
        for (name, counts) in ["widths", "heights"].iter().zip(&self.digits) {
            let name = format!("exports with {name} of 1 to 4 digits");
            checks.push((name, counts.iter().all(|&count| count > 0)));
        }
        let one_less = "an output one byte too short".to_string();
        checks.push(("an output that fits exactly".into(), self.exact > 0));
        checks.push((one_less, self.one_less > 0));
        checks.push(("an export while a slot is taken".into(), self.busy > 0));
        for ((_, name, _, answers), counts) in KINDS.iter().zip(&self.kinds) {
            for &number in *answers {
                let name = format!("a picture {name} answers {number}");
                checks.push((name, counts[usize::from(number == 11)] > 0));
            }
        }
        for (place, &count) in self.places.iter().enumerate() {
            let name = format!("byte {place} of an export's header is changed");
            checks.push((name, count > 0));
        }
        checks.push(("buffers come back".into(), self.back > 0));
        checks
    }

    fn print(&self) {
        println!(
            "{} exports and imports, {} buffers came back",
            self.calls(),
            self.back
        );
        print!("{:<13}", "answer");
        (0..12).for_each(|number| print!("{number:>10}"));
        println!();
        for (name, counts) in WAYS.iter().zip(&self.answers) {
            print!("{name:<13}");
            counts.iter().for_each(|count| print!("{count:>10}"));
            println!();
        }
        println!(
            "outputs that fit exactly {}, one byte too short {}; exports while a slot is taken {}",
            self.exact, self.one_less, self.busy
        );
        println!(
            "exports and imports with a tile held {:?}, refused for the record's tile {:?}",
            self.held, self.spoiled
        );
        println!("exports by digits of width and height {:?}", self.digits);
        println!("imports to an idle board, done and refused with 11, each");
        for ((_, name, ..), counts) in KINDS.iter().zip(&self.kinds) {
            println!("  {name} {counts:?}");
        }
        println!("bytes changed in an export's header {:?}", self.places);
    }
}

impl Pictures {
    /// Counts the record of a call by its tile.
    fn tile(&mut self, way: usize, record: &Record) {
        let faults = record.faults();
        self.held[way] += u64::from(faults.is_empty() && record.tile_whole == 1);
        self.spoiled[way] += u64::from(spoiled_kind(record, &faults).is_some());
    }
}

/// An export and an import, each on a board of its own, and a buffer that comes back.
fn play(seed: u64, counts: &mut Pictures) -> Result<(), String> {
    let mut random = Random::new(seed);
    let size = size(&mut random);
    let pixels = random.bytes((size.0 * size.1) as usize);
    compare_export(&mut random, size, &pixels, counts)?;
    compare_import(&mut random, size, &pixels, counts)?;
    come_back(&mut random, size, &pixels, counts)
}

/// Width and height: small ones most often, and large ones with a small other.
fn size(random: &mut Random) -> (u64, u64) {
    let small = |random: &mut Random| 1 + random.below(SMALL as u64);
    if random.one_in(64) {
        return (random.pick(&[99, 100, 255]), random.pick(&[99, 100, 256]));
    }
    let mut size = (small(random), small(random));
    if random.one_in(16) {
        let large = random.pick(&[16, 99, 100, 255, 256, 999, 1_000, 2_047, 2_048]);
        if random.one_in(2) {
            size.0 = large;
        } else {
            size.1 = large;
        }
    }
    size
}

/// A board of this size: idle most often, with lists in its slots, with a tiled fill under way, or malformed.
fn record(random: &mut Random, size: (u64, u64)) -> Record {
    let (_, mut record) = reference::make(size.0, size.1, 4);
    let list = [0; 20];
    match random.weighted(&[12, 2, 1, 1, 1, 1]) {
        1 => drop(reference::post(&mut record, &list, 1, 2)),
        2 => {
            reference::post(&mut record, &list, 0, 3);
            reference::post(&mut record, &list, 2, 2);
        }
        3 => record.under_way = 2,
        4 => begin_fill(random, &mut record),
        5 => {
            begin_fill(random, &mut record);
            record.tile_whole ^= 1;
        }
        _ => {}
    }
    record
}

/// A tiled fill under way, its tile at the board's upper left corner, whole where it fits.
fn begin_fill(random: &mut Random, record: &mut Record) {
    reference::post(record, &[0; 20], 0, 2);
    (record.next, record.under_way) = (1, 1);
    (record.cmd, record.xy2) = (0x1300_4000, 0x0001_0001);
    if record.state().tile_is_whole() {
        record.tile_whole = 1;
        record.tile = std::array::from_fn(|_| std::array::from_fn(|_| random.half() as u8));
    }
}

/// The number of a buffer, or one that there is not.
pub fn number(random: &mut Random) -> u64 {
    match random.weighted(&[20, 20, 1, 1]) {
        2 => 2,
        3 => extreme(random, 1),
        number => number as u64,
    }
}

/// A buffer with these pixels, at times with one too many or too few.
fn buffer(random: &mut Random, pixels: &[u8]) -> Vec<u8> {
    let mut buffer = pixels.to_vec();
    match random.below(40) {
        0 => buffer.push(0),
        1 => drop(buffer.pop()),
        _ => {}
    }
    buffer
}

/// What a call answers, and what it leaves: the record's words and the bytes lent for writing.
type Outcome = (Report, [u32; pramolyt::WORDS], Vec<u8>);

fn compare_export(
    random: &mut Random,
    size: (u64, u64),
    pixels: &[u8],
    counts: &mut Pictures,
) -> Result<(), String> {
    let record = record(random, size);
    let (number, buffer) = (number(random), buffer(random, pixels));
    let room = room(random, size, pixels.len());
    let lent = random.bytes(room + GUARD);
    let ours = {
        let (mut board, mut output) = (Board::from_words(record.words()), lent.clone());
        let answer = board.export(number as usize, &buffer, &mut output[..room]);
        (export_report(answer), board.words(), output)
    };
    let theirs = {
        let (mut record, mut output) = (record, lent);
        let report = reference::export(&mut record, number, &buffer, &mut output[..room]);
        (report, record.words(), output)
    };
    let about = || {
        let (words, length) = (record.words(), buffer.len());
        format!(
            "export of buffer {number}, {length} bytes {buffer:02X?}, into {room}, board {words:?}"
        )
    };
    compare(&ours, &theirs, about)?;
    let exact = reference::pictures::picture(record.width, record.height, pixels).len();
    let report = theirs.0;
    counts.answers[0][report.number as usize] += 1;
    counts.tile(0, &record);
    counts.one_less += u64::from(report.number == 4 && room + 1 == exact);
    if report.number == 0 {
        counts.exact += u64::from(room == exact);
        counts.busy += u64::from(record.active_taken == 1);
        counts.digits[0][size.0.ilog10() as usize] += 1;
        counts.digits[1][size.1.ilog10() as usize] += 1;
        count_size(&mut counts.sizes[0], size);
    }
    Ok(())
}

fn compare_import(
    random: &mut Random,
    size: (u64, u64),
    pixels: &[u8],
    counts: &mut Pictures,
) -> Result<(), String> {
    let record = record(random, size);
    let made = headers::made(random, size, pixels);
    let number = number(random);
    let lent = random.bytes(pixels.len());
    let lent = buffer(random, &lent);
    let ours = {
        let (mut board, mut buffer) = (Board::from_words(record.words()), lent.clone());
        let answer = board.import(number as usize, &made.bytes, &mut buffer);
        (engine_report(answer), board.words(), buffer)
    };
    let theirs = {
        let (mut record, mut buffer) = (record, lent.clone());
        let report = reference::import(&mut record, number, &made.bytes, &mut buffer);
        (report, record.words(), buffer)
    };
    let about = || {
        let (words, length, picture) = (record.words(), lent.len(), made.bytes.escape_ascii());
        format!("import into buffer {number}, {length} bytes, of {picture}, board {words:?}")
    };
    compare(&ours, &theirs, about)?;
    let answer = theirs.0.number;
    counts.answers[1][answer as usize] += 1;
    counts.tile(1, &record);
    if answer == 0 || answer == 11 {
        counts.kinds[made.kind][usize::from(answer == 11)] += 1;
        if let Some(count) = made.changed.and_then(|at| counts.places.get_mut(at)) {
            *count += 1;
        }
    }
    if answer == 0 {
        count_size(&mut counts.sizes[1], size);
    }
    Ok(())
}

/// "On an idle board, importing an export restores that buffer."
fn come_back(
    random: &mut Random,
    size: (u64, u64),
    pixels: &[u8],
    counts: &mut Pictures,
) -> Result<(), String> {
    let (_, mut board) = Board::make(size.0 as usize, size.1 as usize, 1);
    let mut output = vec![0; pramolyt::picture_max(size.0 as usize, size.1 as usize)];
    let mut buffer = random.bytes(pixels.len());
    let written = board.export(0, pixels, &mut output);
    let answer = board.import(0, &output[..written.unwrap_or(0)], &mut buffer);
    if answer.number() != 0 || buffer != pixels {
        return Err(format!(
            "{size:?} {pixels:02X?} is exported with {written:?}, imported with {answer:?} and does not come back"
        ));
    }
    counts.back += 1;
    Ok(())
}

fn compare(ours: &Outcome, theirs: &Outcome, about: impl Fn() -> String) -> Result<(), String> {
    let what = if ours.0 != theirs.0 {
        format!(
            "the engine answers {:?}, the reference {:?}",
            ours.0, theirs.0
        )
    } else if ours.1 != theirs.1 {
        "the records differ".to_string()
    } else if let Some(at) = (0..ours.2.len()).find(|&at| ours.2[at] != theirs.2[at]) {
        let (byte, other) = (ours.2[at], theirs.2[at]);
        format!("byte {at}: the engine has {byte:02X}, the reference {other:02X}")
    } else {
        return Ok(());
    };
    Err(format!("{}: {what}", about()))
}

fn count_size(sizes: &mut [[u64; SMALL]; SMALL], size: (u64, u64)) {
    let (column, row) = (size.0 as usize - 1, size.1 as usize - 1);
    if let Some(count) = sizes.get_mut(row).and_then(|row| row.get_mut(column)) {
        *count += 1;
    }
}

#[cfg(test)]
mod tests {
    use super::{Pictures, play};
    use crate::compared::Compared;
    use crate::headers::exported;
    use pramolyt::Board;
    use reference::{import, make};

    #[test]
    fn all_that_has_to_come_up_does() {
        let mut counts = Pictures::default();
        for seed in 0..20_000 {
            assert_eq!(play(seed, &mut counts), Ok(()));
        }
        for (name, came_up) in counts.coverage() {
            assert!(came_up, "{name}");
        }
    }

    /// Headers with any one byte changed, and with any one byte put in, before pixels of which some end a comment.
    #[test]
    fn every_byte_at_every_place_of_a_header() {
        const PIXELS: [u8; 32] = *b"\x80\n 16 2\n255\r#\n\t0123456789P5\x0B\x0C#\x00\xFF";
        let (_, mut board) = Board::make(16, 2, 1);
        let (_, mut record) = make(16, 2, 1);
        let header = exported((16, 2));
        let mut read = 0;
        for at in 0..=header.len() {
            for byte in 0..=255 {
                for replaced in 0..2.min(header.len() - at + 1) {
                    let mut picture = [&header[..], &PIXELS].concat();
                    picture.splice(at..at + replaced, [byte]);
                    let (mut ours, mut theirs) = ([0xA5; 32], [0xA5; 32]);
                    let answer = board.import(0, &picture, &mut ours).number();
                    let report = import(&mut record, 0, &picture, &mut theirs);
                    assert_eq!((answer, ours), (report.number, theirs), "{picture:?}");
                    read += usize::from(answer == 0);
                }
            }
        }
        assert!(read > 40, "{read}");
    }
}
