//! "Entry layout, most significant bit first": which entries are legal, and how
//! the words of the registers are read.

/// "Registers: 0 CMD, 1 FORE, 2 BACK, 3 MASK, 4 KEY, 5 LPAT, 6 PCTRL, 7 CLPTL,
/// 8 CLPBR, 9 XY0, 10 XY2, 11 XY3, 12 XY1."
pub mod register {
    pub const CMD: usize = 0;
    pub const FORE: usize = 1;
    pub const BACK: usize = 2;
    pub const MASK: usize = 3;
    pub const KEY: usize = 4;
    pub const LPAT: usize = 5;
    pub const PCTRL: usize = 6;
    pub const CLPTL: usize = 7;
    pub const CLPBR: usize = 8;
    pub const XY0: usize = 9;
    pub const XY2: usize = 10;
    pub const XY3: usize = 11;
    pub const XY1: usize = 12;
    /// How many there are: "13 to 31 are illegal".
    pub const COUNT: usize = 13;
}

/// "Opcodes NOOP 0, BITBLT 1, LINE 2, PLINE 5".
pub mod opcode {
    pub const NOOP: u32 = 0;
    pub const BITBLT: u32 = 1;
    pub const LINE: u32 = 2;
    pub const PLINE: u32 = 5;
}

/// "SOLID 23, TRNSP 22, STPL 21, KEY 20, NLST 19, PRST 18, CLIP 17, source 16,
/// destination 15 (0 display, 1 virtual)", and "CMD bit 14, APAT" (document 02, R-7): the
/// bits of CMD, each by its number.
pub mod flag {
    pub const SOLID: u32 = 23;
    pub const TRNSP: u32 = 22;
    pub const STPL: u32 = 21;
    pub const KEY: u32 = 20;
    pub const NLST: u32 = 19;
    pub const PRST: u32 = 18;
    pub const CLIP: u32 = 17;
    pub const SOURCE: u32 = 16;
    pub const DESTINATION: u32 = 15;
    pub const APAT: u32 = 14;
}

/// "a list memory of 5 bytes an entry".
pub const ENTRY_BYTES: usize = 5;

/// "Width and height are 1 to 2,048"; XY2: "each 0 to 2,048".
pub const LONGEST_SIDE: u32 = 2_048;

/// "entries 1 to 4,096".
pub const MOST_ENTRIES: u32 = 4_096;

/// "Bits 39..35 register, 34..32 zero, 31..0 data."
///
/// The register and the data of the entry at this place; none where the entry is
/// illegal.
pub fn entry_at(list: &[u8], place: usize) -> Option<(usize, u32)> {
    let entry = list.chunks_exact(ENTRY_BYTES).nth(place)?;
    let register = usize::from(entry[0] >> 3);
    let data = u32::from_be_bytes([entry[1], entry[2], entry[3], entry[4]]);
    (entry[0] & 7 == 0 && legal(register, data)).then_some((register, data))
}

/// "FORE, BACK, MASK, KEY: 0 to 255. LPAT: any. CLPTL, CLPBR, XY0, XY1: x in the
/// high half, y in the low half (000), each two's complement. XY2: width, then
/// height, each 0 to 2,048. XY3: 0 to 3."
pub fn legal(register: usize, data: u32) -> bool {
    match register {
        register::CMD => legal_command(Command(data)),
        register::FORE | register::BACK | register::MASK | register::KEY => data <= 255,
        register::LPAT => true,
        register::PCTRL => legal_pattern_control(data),
        register::CLPTL | register::CLPBR | register::XY0 | register::XY1 => true,
        register::XY2 => data >> 16 <= LONGEST_SIDE && data & 0xFFFF <= LONGEST_SIDE,
        register::XY3 => data <= 3,
        _ => false,
    }
}

/// The word of CMD: "opcode 31..28, raster code 27..24", then the flags.
#[derive(Clone, Copy)]
pub struct Command(pub u32);

impl Command {
    pub fn opcode(self) -> u32 {
        self.0 >> 28
    }

    pub fn raster_code(self) -> u32 {
        self.0 >> 24 & 15
    }

    pub fn has(self, flag: u32) -> bool {
        self.0 >> flag & 1 == 1
    }

    pub fn is_line(self) -> bool {
        self.opcode() == opcode::LINE || self.opcode() == opcode::PLINE
    }
}

/// "NOOP: all else zero. Other opcodes are illegal. BITBLT: STPL, NLST, PRST zero;
/// TRNSP only with SOLID; KEY only without. LINE, PLINE: KEY and source zero; SOLID
/// or STPL set." Then "BITBLT with STPL becomes legal"; "6 stays for KEY with STPL
/// and for TRNSP with neither STPL nor SOLID" (document 02, R-2). APAT "is legal for a
/// BITBLT with SOLID, STPL and KEY zero"; "6 for APAT with any other command or style"
/// (document 02, R-7).
fn legal_command(command: Command) -> bool {
    let has = |flag| command.has(flag);
    let rest_zero = command.0 & 0x3FFF == 0;
    match command.opcode() {
        opcode::NOOP => command.0 == 0,
        opcode::BITBLT => {
            rest_zero
                && !(has(flag::NLST) || has(flag::PRST))
                && (has(flag::SOLID) || has(flag::STPL) || !has(flag::TRNSP))
                && !(has(flag::SOLID) && has(flag::KEY))
                && !(has(flag::STPL) && has(flag::KEY))
                && !(has(flag::APAT) && (has(flag::SOLID) || has(flag::STPL) || has(flag::KEY)))
        }
        opcode::LINE | opcode::PLINE => {
            rest_zero
                && !(has(flag::KEY) || has(flag::SOURCE) || has(flag::APAT))
                && (has(flag::SOLID) || has(flag::STPL))
        }
        _ => false,
    }
}

/// The word of PCTRL: the pattern's length and scale, and the state it starts in.
#[derive(Clone, Copy)]
pub struct PatternControl {
    pub length: u32,
    pub scale: u32,
    pub start_place: u32,
    pub start_repeat: u32,
}

/// "PCTRL (000): PLEN 4..0, 0 meaning 32 bits; PSCL 7..5, scale PSCL + 1; SPTR
/// 12..8; SSCL 15..13; rest zero."
pub fn pattern_control(word: u32) -> PatternControl {
    let plen = word & 31;
    let pscl = word >> 5 & 7;
    PatternControl {
        length: if plen == 0 { 32 } else { plen },
        scale: pscl + 1,
        start_place: word >> 8 & 31,
        start_repeat: word >> 13 & 7,
    }
}

/// "Illegal where SSCL > PSCL, or SPTR is not below the length."
fn legal_pattern_control(word: u32) -> bool {
    let control = pattern_control(word);
    word >> 16 == 0 && control.start_repeat < control.scale && control.start_place < control.length
}
