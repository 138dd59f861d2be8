//! Pictures for an import: as they are exported, written otherwise, and damaged.

use crate::random::Random;

/// The white space of a header.
const WHITE: &[u8] = b" \t\n\r";

/// What is odd about a picture.
#[derive(Clone, Copy, PartialEq, Eq)]
pub enum Kind {
    /// Nothing.
    AsExported,
    /// More white space, and other.
    MoreWhite,
    /// A few leading zeros.
    Zeros,
    /// Hundreds of them.
    ManyZeros,
    /// Comments, at times one inside another.
    Comments,
    /// White space, zeros and comments.
    Mixed,
    /// A comment in the place of white space.
    CommentForWhite,
    /// A comment that does not end.
    Unended,
    /// A second white space after the 255.
    TwoWhite,
    /// First pixels that would mean something in a header.
    TellingPixels,
    /// A vertical tab or a form feed in the place of white space.
    OtherBlank,
    /// A number that has the right low 32 bits.
    Past32Bits,
    /// A number that has the right low 64 bits.
    Past64Bits,
    /// Another number.
    OtherNumber,
    /// Another magic number.
    OtherMagic,
    /// Bytes missing at its end.
    Cut,
    /// Bytes after it.
    BytesAfter,
    /// A byte of an export's header changed.
    ByteChanged,
    /// Bytes of a mixed header changed, taken out and put in.
    Damaged,
}

/// Each kind with its name, how often it is made, and the answers that an idle board must have given to it.
pub const KINDS: [(Kind, &str, u64, &[usize]); 19] = [
    (Kind::AsExported, "as exported", 4, &[0]),
    (Kind::MoreWhite, "with more white space", 2, &[0]),
    (Kind::Zeros, "with leading zeros", 2, &[0]),
    (Kind::ManyZeros, "with hundreds of leading zeros", 1, &[0]),
    (Kind::Comments, "with comments", 6, &[0]),
    (Kind::Mixed, "with all of these", 8, &[0]),
    (
        Kind::CommentForWhite,
        "with a comment for white space",
        3,
        &[11],
    ),
    (Kind::Unended, "with a comment that does not end", 3, &[11]),
    (
        Kind::TwoWhite,
        "with two white spaces after the 255",
        2,
        &[11],
    ),
    (
        Kind::TellingPixels,
        "with white space or a # for its first pixels",
        3,
        &[0],
    ),
    (
        Kind::OtherBlank,
        "with a vertical tab or a form feed",
        2,
        &[11],
    ),
    (Kind::Past32Bits, "with a number past 32 bits", 2, &[11]),
    (Kind::Past64Bits, "with a number past 64 bits", 2, &[11]),
    (Kind::OtherNumber, "with another number", 3, &[11]),
    (Kind::OtherMagic, "of another magic number", 1, &[11]),
    (Kind::Cut, "cut short", 3, &[11]),
    (Kind::BytesAfter, "with bytes after it", 3, &[11]),
    (
        Kind::ByteChanged,
        "with a byte of an export's header changed",
        8,
        &[0, 11],
    ),
    (
        Kind::Damaged,
        "with bytes of its header changed",
        12,
        &[0, 11],
    ),
];

/// A picture made for an import.
pub struct Made {
    /// Its bytes.
    pub bytes: Vec<u8>,
    /// Its place among [`KINDS`].
    pub kind: usize,
    /// The place of the byte that was changed in an export's header.
    pub changed: Option<usize>,
}

/// A picture for a board of this size, with these pixels, or one that is not.
pub fn made(random: &mut Random, size: (u64, u64), pixels: &[u8]) -> Made {
    let weights = KINDS.map(|(_, _, weight, _)| weight);
    let kind = random.weighted(&weights);
    let mut header = Header::new(size);
    let mut raster = pixels.to_vec();
    change_parts(random, KINDS[kind].0, &mut header, &mut raster);
    let mut text = header.bytes();
    let changed = change_text(random, KINDS[kind].0, &mut text, &mut raster);
    let mut bytes = [text, raster].concat();
    match KINDS[kind].0 {
        Kind::Cut => bytes.truncate(random.below(bytes.len() as u64) as usize),
        Kind::BytesAfter => {
            let more = 1 + random.below(20) as usize;
            bytes.extend(random.bytes(more));
        }
        _ => {}
    }
    Made {
        bytes,
        kind,
        changed,
    }
}

/// The bytes of an export's header.
pub fn exported(size: (u64, u64)) -> Vec<u8> {
    Header::new(size).bytes()
}

/// The parts of a header: the white space follows `P5` and each of the numbers.
struct Header {
    magic: Vec<u8>,
    white: [Vec<u8>; 4],
    numbers: [Vec<u8>; 3],
}

impl Header {
    /// As an export has it.
    fn new(size: (u64, u64)) -> Header {
        Header {
            magic: b"P5".to_vec(),
            white: [b"\n", b" ", b"\n", b"\n"].map(|byte| byte.to_vec()),
            numbers: [size.0, size.1, 255].map(|number| number.to_string().into_bytes()),
        }
    }

    fn bytes(&self) -> Vec<u8> {
        let mut bytes = [&self.magic[..], &self.white[0]].concat();
        for (number, white) in self.numbers.iter().zip(&self.white[1..]) {
            bytes.extend(number);
            bytes.extend(white);
        }
        bytes
    }

    fn more_white(&mut self, random: &mut Random) {
        for white in &mut self.white[..3] {
            let more = 0..random.between(1, 4);
            *white = more.map(|_| random.pick(WHITE)).collect();
        }
        self.white[3] = vec![random.pick(WHITE)];
    }

    /// Puts zeros before one of the numbers, and at times before the others.
    fn zeros(&mut self, random: &mut Random, most: u64) {
        let which = random.below(3) as usize;
        for (k, number) in self.numbers.iter_mut().enumerate() {
            if k == which || random.one_in(2) {
                let zeros = 1 + random.below(most) as usize;
                number.splice(0..0, vec![b'0'; zeros]);
            }
        }
    }
}

/// What a kind changes in the parts of the header, and among the pixels.
fn change_parts(random: &mut Random, kind: Kind, header: &mut Header, raster: &mut [u8]) {
    let number = &mut header.numbers[random.below(3) as usize];
    let white = &mut header.white[random.below(4) as usize];
    match kind {
        Kind::MoreWhite => header.more_white(random),
        Kind::Zeros => header.zeros(random, 4),
        Kind::ManyZeros => header.zeros(random, 400),
        Kind::Mixed | Kind::Damaged => {
            header.more_white(random);
            header.zeros(random, 3);
        }
        Kind::CommentForWhite => *white = comment(random),
        Kind::TwoWhite => header.white[3].push(random.pick(WHITE)),
        Kind::TellingPixels => {
            let first = raster.iter_mut().take(3);
            first.for_each(|pixel| *pixel = random.pick(b" \t\n\r#"));
        }
        Kind::OtherBlank => *white = vec![random.pick(b"\x0B\x0C")],
        Kind::Past32Bits => add(random, number, 1 << 32),
        Kind::Past64Bits => add(random, number, 1 << 64),
        Kind::OtherNumber => other_number(random, &mut header.numbers),
        Kind::OtherMagic => {
            let magics: [&[u8]; 8] = [b"P2", b"P4", b"P6", b"P7", b"p5", b"5P", b" P5", b"P 5"];
            header.magic = random.pick(&magics).to_vec();
        }
        _ => {}
    }
}

/// What a kind changes in the bytes of the header; the place of the byte that is changed in an export's.
fn change_text(
    random: &mut Random,
    kind: Kind,
    text: &mut Vec<u8>,
    raster: &mut [u8],
) -> Option<usize> {
    match kind {
        Kind::Comments | Kind::Mixed => comments(random, text),
        Kind::Unended => {
            let at = inside(random, text);
            text.insert(at, b'#');
            let rest = text[at..].iter_mut().chain(raster);
            let ends = rest.filter(|byte| matches!(**byte, b'\n' | b'\r'));
            ends.for_each(|byte| *byte = b' ');
        }
        Kind::ByteChanged => {
            let at = random.below(text.len() as u64) as usize;
            text[at] = telling(random);
            return Some(at);
        }
        Kind::Damaged => {
            comments(random, text);
            (0..random.between(1, 2)).for_each(|_| damage(random, text));
        }
        _ => {}
    }
    None
}

/// A place between `P5` and the last white space of a header.
fn inside(random: &mut Random, header: &[u8]) -> usize {
    random.between(2, header.len() as i64 - 1) as usize
}

/// A comment with its end.
fn comment(random: &mut Random) -> Vec<u8> {
    let mut bytes = vec![b'#'];
    for _ in 0..random.below(5) {
        bytes.push(random.pick(b"# \t05255Pquay\x0B\x00\xFF"));
    }
    bytes.push(random.pick(b"\n\r"));
    bytes
}

/// Puts comments anywhere into a header.
fn comments(random: &mut Random, header: &mut Vec<u8>) {
    for _ in 0..random.between(1, 4) {
        let at = inside(random, header);
        header.splice(at..at, comment(random));
    }
}

/// A byte that means something in a header, or any.
fn telling(random: &mut Random) -> u8 {
    match random.below(4) {
        0 => random.pick(WHITE),
        1 => random.pick(b"#0123456789P\x0B\x0C"),
        _ => random.word() as u8,
    }
}

/// Changes, takes out or puts in one byte of a header.
fn damage(random: &mut Random, header: &mut Vec<u8>) {
    let at = random.below(header.len() as u64) as usize;
    match random.below(3) {
        0 => header[at] = telling(random),
        1 => drop(header.remove(at)),
        _ => header.insert(at, telling(random)),
    }
}

/// Adds a few times so much to a number, which is then the same to who drops the bits above.
fn add(random: &mut Random, number: &mut Vec<u8>, much: u128) {
    let digits = std::str::from_utf8(number).expect("digits");
    let old: u128 = digits.parse().expect("a number");
    let times = u128::from(1 + random.below(9));
    *number = (old + times * much).to_string().into_bytes();
}

/// Makes one of the numbers another.
fn other_number(random: &mut Random, numbers: &mut [Vec<u8>; 3]) {
    let which = random.below(3) as usize;
    match random.below(6) {
        0 if numbers[0] != numbers[1] => numbers.swap(0, 1),
        1 => numbers[which].push(b'0'),
        2 => numbers[which].clear(),
        3 => numbers[2] = random.pick(&["1", "15", "254", "256", "65535"]).into(),
        4 => numbers[which].insert(0, b'1'),
        _ => add(random, &mut numbers[which], 1),
    }
}
