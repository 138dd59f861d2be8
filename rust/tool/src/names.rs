//! The names of the list format: registers, and the fields of their words. Here and in `reasons` is all that the tool knows
//! of the format; a new register, flag or opcode is a line in a table of each.

use pramolyt::list::{Direction, Flags, Opcode, Register};

/// How a register's word is written.
#[derive(Clone, Copy, PartialEq, Eq)]
pub enum Form {
    /// Opcode, raster code, flags.
    Command,
    /// A decimal number.
    Number,
    /// So many hex digits at least.
    Hex(usize),
    /// Length, scale, place and repeat of a line pattern.
    Pattern,
    /// A point.
    Point,
    /// Width and height.
    Size,
    /// The corner that a blit begins at.
    Corner,
}

/// A register, its name and how its word is written, in the order of their numbers.
pub const REGISTERS: [(Register, &str, Form); 13] = [
    (Register::Cmd, "CMD", Form::Command),
    (Register::Fore, "FORE", Form::Number),
    (Register::Back, "BACK", Form::Number),
    (Register::Mask, "MASK", Form::Hex(2)),
    (Register::Key, "KEY", Form::Number),
    (Register::Lpat, "LPAT", Form::Hex(8)),
    (Register::Pctrl, "PCTRL", Form::Pattern),
    (Register::Clptl, "CLPTL", Form::Point),
    (Register::Clpbr, "CLPBR", Form::Point),
    (Register::Xy0, "XY0", Form::Point),
    (Register::Xy2, "XY2", Form::Size),
    (Register::Xy3, "XY3", Form::Corner),
    (Register::Xy1, "XY1", Form::Point),
];

/// The opcodes of CMD.
pub const OPCODES: [(Opcode, &str); 4] = [
    (Opcode::Noop, "NOOP"),
    (Opcode::Bitblt, "BITBLT"),
    (Opcode::Line, "LINE"),
    (Opcode::Pline, "PLINE"),
];

/// The raster codes of CMD, in the order of their numbers, by their names in X.
pub const RASTER_CODES: [&str; 16] = [
    "clear",
    "and",
    "andReverse",
    "copy",
    "andInverted",
    "noop",
    "xor",
    "or",
    "nor",
    "equiv",
    "invert",
    "orReverse",
    "copyInverted",
    "orInverted",
    "nand",
    "set",
];

/// The flags of CMD, the most significant first.
pub const FLAGS: [(Flags, &str); 10] = [
    (Flags::SOLID, "SOLID"),
    (Flags::TRNSP, "TRNSP"),
    (Flags::STPL, "STPL"),
    (Flags::KEY, "KEY"),
    (Flags::NLST, "NLST"),
    (Flags::PRST, "PRST"),
    (Flags::CLIP, "CLIP"),
    (Flags::SOURCE_VIRTUAL, "SOURCE_VIRTUAL"),
    (Flags::DESTINATION_VIRTUAL, "DESTINATION_VIRTUAL"),
    (Flags::APAT, "APAT"),
];

/// The directions of XY3.
pub const DIRECTIONS: [(Direction, &str); 4] = [
    (Direction::UpperLeft, "upper-left"),
    (Direction::LowerLeft, "lower-left"),
    (Direction::UpperRight, "upper-right"),
    (Direction::LowerRight, "lower-right"),
];

/// Bits of CMD that are neither opcode nor raster code nor flag.
pub const fn unused_command_bits() -> u32 {
    let mut used = 0xFF00_0000;
    let mut at = 0;
    while at < FLAGS.len() {
        used |= FLAGS[at].0.bits();
        at += 1;
    }
    !used
}

/// The row of a register's number.
pub fn register(number: u8) -> Option<&'static (Register, &'static str, Form)> {
    REGISTERS.get(usize::from(number))
}

/// The name of an opcode's number.
pub fn opcode(number: u32) -> Option<&'static str> {
    let row = OPCODES.iter().find(|row| row.0 as u32 == number);
    row.map(|row| row.1)
}

#[cfg(test)]
mod tests {
    use super::REGISTERS;
    use pramolyt::list::Register;

    #[test]
    fn the_registers_stand_by_their_numbers() {
        assert_eq!(REGISTERS.map(|row| row.0), Register::ALL);
    }
}
