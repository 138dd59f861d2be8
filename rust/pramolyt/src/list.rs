//! The format of display lists: names for its numbers, and functions that put an entry together. What each of them means
//! stands in `docs/FORMAT.md`; `include/pramolyt_list.h` is the same for C.
//!
//! ```
//! use pramolyt::list::{Entry, Flags, Opcode, RasterCode, Register, command, point};
//!
//! let line = command(Opcode::Line, RasterCode::Copy, Flags::SOLID);
//! let list = [
//!     Entry::new(Register::Fore, 7).to_bytes(),
//!     Entry::new(Register::Cmd, line).to_bytes(),
//!     Entry::new(Register::Xy0, point(0, 0)).to_bytes(),
//!     Entry::new(Register::Xy1, point(4, 2)).to_bytes(),
//! ]
//! .concat();
//! assert_eq!(list[15..], [0x60, 0, 4, 0, 2]);
//! ```
//!
//! Whether an entry is legal is for [`Board::post`](crate::Board::post) to say, which refuses a list that has an illegal one.

use core::ops::{BitOr, BitOrAssign};

/// Bytes of an entry.
pub const ENTRY_BYTES: usize = 5;
/// The most entries of a list memory; the fewest is 1.
pub const MAX_ENTRIES: usize = 4096;
/// The most for the width and the height of a board, of which the least is 1, and of a blit, which may be 0.
pub const MAX_SIDE: usize = 2048;
/// The most bits of a line pattern; the fewest is 1.
pub const MAX_PATTERN_LENGTH: u8 = 32;
/// The most pixels for each bit of a line pattern; the fewest is 1.
pub const MAX_PATTERN_SCALE: u8 = 8;
/// A word that is illegal in CMD, PCTRL and XY2. [`size`] and [`pattern`] give it where a number is outside its range, so
/// that the entry is refused.
pub const ILLEGAL_WORD: u32 = u32::MAX;

/// A register, by its number.
#[derive(Clone, Copy, Debug, PartialEq, Eq)]
#[repr(u8)]
pub enum Register {
    /// The command: [`command`] gives its words.
    Cmd = 0,
    /// The colour of a 1, and of everything with [`Flags::SOLID`].
    Fore = 1,
    /// The colour of a 0.
    Back = 2,
    /// The bits of a pixel that may change.
    Mask = 3,
    /// The source pixel that draws nothing with [`Flags::KEY`].
    Key = 4,
    /// The bits of the line pattern, the first in bit 0.
    Lpat = 5,
    /// The line pattern's length, scale and start: [`pattern`] gives its words.
    Pctrl = 6,
    /// The upper left corner of the clip, a [`point`].
    Clptl = 7,
    /// The lower right corner of the clip, a [`point`].
    Clpbr = 8,
    /// The start of a line, the source corner of a blit or the upper left corner of its tile, a [`point`].
    Xy0 = 9,
    /// Width and height of a blit, a [`size`].
    Xy2 = 10,
    /// The [`Direction`] of a blit.
    Xy3 = 11,
    /// The end of a line or the destination corner of a blit, a [`point`]. Writing it triggers the command in CMD.
    Xy1 = 12,
}

impl Register {
    /// The registers in the order of their numbers.
    pub const ALL: [Register; 13] = [
        Register::Cmd,
        Register::Fore,
        Register::Back,
        Register::Mask,
        Register::Key,
        Register::Lpat,
        Register::Pctrl,
        Register::Clptl,
        Register::Clpbr,
        Register::Xy0,
        Register::Xy2,
        Register::Xy3,
        Register::Xy1,
    ];

    /// Its number in an entry.
    pub const fn number(self) -> u8 {
        self as u8
    }
}

/// An opcode of CMD.
#[derive(Clone, Copy, Debug, PartialEq, Eq)]
#[repr(u8)]
pub enum Opcode {
    /// Draws nothing. All else in CMD is then zero.
    Noop = 0,
    /// A rectangle.
    Bitblt = 1,
    /// A line from XY0 to XY1.
    Line = 2,
    /// A line from the last point to XY1.
    Pline = 5,
}

/// A raster code of CMD, by its name in X: how the source `s` is mixed with the old pixel `d`.
#[derive(Clone, Copy, Debug, PartialEq, Eq)]
#[repr(u8)]
pub enum RasterCode {
    /// 0
    Clear = 0,
    /// s & d
    And = 1,
    /// s & !d
    AndReverse = 2,
    /// s
    Copy = 3,
    /// !s & d
    AndInverted = 4,
    /// d
    Noop = 5,
    /// s ^ d
    Xor = 6,
    /// s | d
    Or = 7,
    /// !(s | d)
    Nor = 8,
    /// !(s ^ d)
    Equiv = 9,
    /// !d
    Invert = 10,
    /// s | !d
    OrReverse = 11,
    /// !s
    CopyInverted = 12,
    /// !s | d
    OrInverted = 13,
    /// !(s & d)
    Nand = 14,
    /// all ones
    Set = 15,
}

/// The direction of a blit, for XY3: the corner that it begins at, which XY0 and XY1 then name.
#[derive(Clone, Copy, Debug, PartialEq, Eq)]
#[repr(u8)]
pub enum Direction {
    /// Left to right, top to bottom.
    UpperLeft = 0,
    /// Left to right, bottom to top.
    LowerLeft = 1,
    /// Right to left, top to bottom.
    UpperRight = 2,
    /// Right to left, bottom to top.
    LowerRight = 3,
}

impl Direction {
    /// The word for XY3.
    pub const fn word(self) -> u32 {
        self as u32
    }
}

/// A picture buffer.
#[derive(Clone, Copy, Debug, PartialEq, Eq)]
#[repr(u8)]
pub enum Buffer {
    /// The one that is shown.
    Display = 0,
    /// The other.
    Virtual = 1,
}

impl Buffer {
    /// Its number, for [`Board::window_write`](crate::Board::window_write).
    pub const fn number(self) -> usize {
        self as usize
    }
}

/// Flags of CMD, joined by `|`.
#[derive(Clone, Copy, Debug, Default, PartialEq, Eq)]
pub struct Flags(u32);

impl Flags {
    /// No flag.
    pub const NONE: Flags = Flags(0);
    /// FORE everywhere.
    pub const SOLID: Flags = Flags(1 << 23);
    /// A 0 draws nothing in place of BACK.
    pub const TRNSP: Flags = Flags(1 << 22);
    /// From bits: a blit's source, a line's pattern.
    pub const STPL: Flags = Flags(1 << 21);
    /// A source pixel equal to KEY draws nothing.
    pub const KEY: Flags = Flags(1 << 20);
    /// A line without its last pixel.
    pub const NLST: Flags = Flags(1 << 19);
    /// A line that sets its pattern back to PCTRL's start.
    pub const PRST: Flags = Flags(1 << 18);
    /// Draws only from CLPTL to CLPBR.
    pub const CLIP: Flags = Flags(1 << 17);
    /// Reads the virtual buffer, else display.
    pub const SOURCE_VIRTUAL: Flags = Flags(1 << 16);
    /// Draws into the virtual buffer, else display.
    pub const DESTINATION_VIRTUAL: Flags = Flags(1 << 15);
    /// A blit from a tile of 16 by 8 pixels, XY0 being its upper left corner.
    pub const APAT: Flags = Flags(1 << 14);

    /// The flags as bits of CMD.
    pub const fn bits(self) -> u32 {
        self.0
    }

    /// The flags of both; `|` as a `const fn`.
    pub const fn union(self, other: Flags) -> Flags {
        Flags(self.0 | other.0)
    }
}

impl BitOr for Flags {
    type Output = Flags;

    fn bitor(self, other: Flags) -> Flags {
        self.union(other)
    }
}

impl BitOrAssign for Flags {
    fn bitor_assign(&mut self, other: Flags) {
        *self = self.union(other);
    }
}

/// An entry of a display list: a word for a register.
#[derive(Clone, Copy, Debug, PartialEq, Eq)]
pub struct Entry {
    /// The register that is written.
    pub register: Register,
    /// What is written.
    pub word: u32,
}

impl Entry {
    /// The entry that writes `word` into `register`.
    pub const fn new(register: Register, word: u32) -> Entry {
        Entry { register, word }
    }

    /// The bytes of the entry in list memory.
    pub const fn to_bytes(self) -> [u8; ENTRY_BYTES] {
        let [a, b, c, d] = self.word.to_be_bytes();
        [self.register.number() << 3, a, b, c, d]
    }

    /// The entry with these bytes. There is none where the register's number is above 12 or one of the three bits after it
    /// is set; whether the word is legal is not looked at.
    pub fn from_bytes(bytes: [u8; ENTRY_BYTES]) -> Option<Entry> {
        let [first, a, b, c, d] = bytes;
        if first % 8 != 0 {
            return None;
        }
        let register = *Register::ALL.get(usize::from(first / 8))?;
        Some(Entry::new(register, u32::from_be_bytes([a, b, c, d])))
    }
}

/// A point, for CLPTL, CLPBR, XY0 and XY1.
pub const fn point(x: i16, y: i16) -> u32 {
    (x as u16 as u32) << 16 | y as u16 as u32
}

/// A size, for XY2. Each number is 0 to [`MAX_SIDE`].
pub const fn size(width: usize, height: usize) -> u32 {
    if width > MAX_SIDE || height > MAX_SIDE {
        return ILLEGAL_WORD;
    }
    (width as u32) << 16 | height as u32
}

/// A command, for CMD.
pub const fn command(opcode: Opcode, code: RasterCode, flags: Flags) -> u32 {
    (opcode as u32) << 28 | (code as u32) << 24 | flags.bits()
}

/// A line pattern, for PCTRL: so many bits of LPAT, so many pixels for each, and where it starts: a place below the length,
/// a repeat below the scale.
pub const fn pattern(length: u8, scale: u8, place: u8, repeat: u8) -> u32 {
    if length > MAX_PATTERN_LENGTH
        || place >= length
        || scale > MAX_PATTERN_SCALE
        || repeat >= scale
    {
        return ILLEGAL_WORD;
    }
    (length % 32) as u32 | (scale as u32 - 1) << 5 | (place as u32) << 8 | (repeat as u32) << 13
}
