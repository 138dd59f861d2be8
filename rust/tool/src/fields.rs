//! The words of registers as fields: written, and read back.

use std::fmt::{self, Write};

use call_log::Fault;
use pramolyt::list::{MAX_PATTERN_LENGTH, MAX_PATTERN_SCALE, Opcode};

use crate::names::{DIRECTIONS, FLAGS, Form, OPCODES, RASTER_CODES, unused_command_bits};
use crate::reasons::pattern_fields;
use crate::tokens::Tokens;

/// Writes a word in the fields of its register. Every word can be read back from them.
pub fn write(form: Form, word: u32, out: &mut String) -> fmt::Result {
    let (high, low) = ((word >> 16) as u16, word as u16);
    match form {
        Form::Command => write_command(word, out),
        Form::Number => write!(out, "{word}"),
        Form::Hex(digits) => write!(out, "0x{word:0digits$X}"),
        Form::Pattern => write_pattern(word, out),
        Form::Point => write!(out, "({}, {})", high as i16, low as i16),
        Form::Size => write!(out, "{high} by {low}"),
        Form::Corner => match DIRECTIONS.iter().find(|row| row.0.word() == word) {
            Some((_, name)) => out.write_str(name),
            None => write!(out, "{word}"),
        },
    }
}

fn write_command(word: u32, out: &mut String) -> fmt::Result {
    match crate::names::opcode(word >> 28) {
        Some(name) => out.write_str(name)?,
        None => write!(out, "{}", word >> 28)?,
    }
    if word != Opcode::Noop as u32 {
        write!(out, " {}", RASTER_CODES[(word >> 24 & 15) as usize])?;
    }
    for (flag, name) in FLAGS {
        if word & flag.bits() != 0 {
            write!(out, " {name}")?;
        }
    }
    match word & unused_command_bits() {
        0 => Ok(()),
        unused => write!(out, " 0x{unused:04X}"),
    }
}

fn write_pattern(word: u32, out: &mut String) -> fmt::Result {
    let [length, scale, place, repeat] = pattern_fields(word);
    write!(out, "length {length} scale {scale}")?;
    if (place, repeat) != (0, 0) {
        write!(out, " place {place} repeat {repeat}")?;
    }
    match word >> 16 << 16 {
        0 => Ok(()),
        unused => write!(out, " 0x{unused:08X}"),
    }
}

/// Reads the fields of a register of this name.
pub fn read(form: Form, name: &str, tokens: &mut Tokens) -> Result<u32, Fault> {
    match form {
        Form::Command => read_command(tokens),
        Form::Number | Form::Hex(_) => {
            tokens.number(&format!("a number for {name}"), 0, u32::MAX.into())
        }
        Form::Pattern => read_pattern(tokens),
        Form::Point => {
            tokens.expect("(")?;
            let x = coordinate(tokens, "x")?;
            tokens.expect(",")?;
            let y = coordinate(tokens, "y")?;
            tokens.expect(")")?;
            Ok(x << 16 | y)
        }
        Form::Size => {
            let width = tokens.number("the width", 0, 0xFFFF)?;
            tokens.expect("by")?;
            Ok(width << 16 | tokens.number("the height", 0, 0xFFFF)?)
        }
        Form::Corner => match tokens.named(DIRECTIONS.map(|row| (row.0.word(), row.1))) {
            Some(word) => Ok(word),
            None => tokens.number("a direction such as upper-left", 0, u32::MAX.into()),
        },
    }
}

/// A coordinate, as 16 bits.
fn coordinate(tokens: &mut Tokens, name: &str) -> Result<u32, Fault> {
    let number = tokens.number(name, i16::MIN.into(), i16::MAX.into())?;
    Ok(number & 0xFFFF)
}

fn read_command(tokens: &mut Tokens) -> Result<u32, Fault> {
    let opcode = match tokens.named(OPCODES.map(|row| (row.0 as u32, row.1))) {
        Some(opcode) => opcode,
        None => tokens.number("an opcode such as LINE", 0, 15)?,
    };
    let codes = (0..).zip(RASTER_CODES);
    let code = match tokens.named(codes) {
        Some(code) => code,
        None if opcode == Opcode::Noop as u32 && tokens.peek().is_none() => 0,
        None => tokens.number("a raster code such as copy", 0, 15)?,
    };
    let mut word = opcode << 28 | code << 24;
    loop {
        if let Some(flag) = tokens.named(FLAGS.map(|row| (row.0.bits(), row.1))) {
            word |= flag;
        } else if let Some(unused) = tokens.hex() {
            word |= unused;
        } else if tokens.peek().is_some() {
            return Err(tokens.wanted("a flag such as SOLID"));
        } else {
            return Ok(word);
        }
    }
}

fn read_pattern(tokens: &mut Tokens) -> Result<u32, Fault> {
    let mut field = |name: &str, least: i64, most: u8, wanted: bool| {
        if !wanted && tokens.named([(0, name)]).is_none() {
            return Ok(0);
        }
        if wanted {
            tokens.expect(name)?;
        }
        tokens.number(name, least, most.into())
    };
    let length = field("length", 1, MAX_PATTERN_LENGTH, true)?;
    let scale = field("scale", 1, MAX_PATTERN_SCALE, true)?;
    let place = field("place", 0, MAX_PATTERN_LENGTH - 1, false)?;
    let repeat = field("repeat", 0, MAX_PATTERN_SCALE - 1, false)?;
    let word = (length % 32) | (scale - 1) << 5 | place << 8 | repeat << 13;
    Ok(word | tokens.hex().unwrap_or(0))
}

#[cfg(test)]
mod tests {
    use super::{read, write};
    use crate::names::REGISTERS;
    use crate::tokens::Tokens;
    use compare::random::Random;

    /// The word as it is written, which reads back as that word and no more.
    fn written(register: usize, word: u32) -> String {
        let (_, name, form) = REGISTERS[register];
        let mut text = String::new();
        write(form, word, &mut text).expect("a String takes all");
        let mut tokens = Tokens::of(1, &text);
        assert_eq!(read(form, name, &mut tokens), Ok(word), "{name} {text}");
        assert_eq!(tokens.peek(), None, "{name} {text}");
        text
    }

    #[test]
    fn every_word_reads_back() {
        let mut random = Random::new(4);
        for register in 0..REGISTERS.len() {
            for half in 0..1 << 16 {
                written(register, half);
                written(register, half << 16);
                written(register, random.half());
            }
        }
    }

    #[test]
    fn words_as_they_are_written() {
        for (register, word, text) in [
            (0, 0, "NOOP"),
            (0, 0x0300_0000, "NOOP copy"),
            (0, 0x2382_0000, "LINE copy SOLID CLIP"),
            (
                0,
                0x1321_8000,
                "BITBLT copy STPL SOURCE_VIRTUAL DESTINATION_VIRTUAL",
            ),
            (0, 0x1300_4000, "BITBLT copy APAT"),
            (0, 0x3380_0003, "3 copy SOLID 0x0003"),
            (1, 7, "7"),
            (3, 15, "0x0F"),
            (5, 5, "0x00000005"),
            (6, 0x0023, "length 3 scale 2"),
            (6, 0x2123, "length 3 scale 2 place 1 repeat 1"),
            (6, 0x1_0000, "length 32 scale 1 0x00010000"),
            (9, 0xFFFE_0000, "(-2, 0)"),
            (10, 0x000C_0003, "12 by 3"),
            (11, 2, "upper-right"),
            (11, 4, "4"),
            (12, 0x0004_0002, "(4, 2)"),
        ] {
            assert_eq!(written(register, word), text);
        }
    }
}
