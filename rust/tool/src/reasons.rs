//! Why an entry is illegal. The verdict is the library's (`judge`); what stands here says it in words, and the tests hold it
//! against the verdict.

use pramolyt::list::{
    ENTRY_BYTES, Flags, MAX_PATTERN_LENGTH, MAX_PATTERN_SCALE, MAX_SIDE, Opcode, Register,
};

use crate::names::{self, unused_command_bits};

const LINES: &[Opcode] = &[Opcode::Line, Opcode::Pline];
const BLITS: &[Opcode] = &[Opcode::Bitblt];

/// A style that is illegal for these opcodes: all flags of `with` set, none of `without`.
struct Style {
    opcodes: &'static [Opcode],
    with: Flags,
    without: Flags,
    why: &'static str,
}

const fn style(
    opcodes: &'static [Opcode],
    with: Flags,
    without: Flags,
    why: &'static str,
) -> Style {
    Style {
        opcodes,
        with,
        without,
        why,
    }
}

const NONE: Flags = Flags::NONE;
const SOLID_OR_STPL: Flags = Flags::SOLID.union(Flags::STPL);

/// The styles that are illegal in CMD.
const STYLES: [Style; 12] = [
    style(
        BLITS,
        Flags::KEY.union(Flags::SOLID),
        NONE,
        "KEY with SOLID",
    ),
    style(BLITS, Flags::KEY.union(Flags::STPL), NONE, "KEY with STPL"),
    style(
        BLITS,
        Flags::TRNSP,
        SOLID_OR_STPL,
        "TRNSP with neither SOLID nor STPL",
    ),
    style(
        BLITS,
        Flags::APAT.union(Flags::SOLID),
        NONE,
        "APAT with SOLID",
    ),
    style(
        BLITS,
        Flags::APAT.union(Flags::STPL),
        NONE,
        "APAT with STPL",
    ),
    style(BLITS, Flags::APAT.union(Flags::KEY), NONE, "APAT with KEY"),
    style(BLITS, Flags::NLST, NONE, "NLST with a blit"),
    style(BLITS, Flags::PRST, NONE, "PRST with a blit"),
    style(
        LINES,
        NONE,
        SOLID_OR_STPL,
        "a line with neither SOLID nor STPL",
    ),
    style(LINES, Flags::KEY, NONE, "KEY with a line"),
    style(
        LINES,
        Flags::SOURCE_VIRTUAL,
        NONE,
        "SOURCE_VIRTUAL with a line",
    ),
    style(LINES, Flags::APAT, NONE, "APAT with a line"),
];

/// Every ground on which the entry is illegal; none where it is legal.
pub fn reasons(entry: [u8; ENTRY_BYTES]) -> Vec<String> {
    let [first, a, b, c, d] = entry;
    let word = u32::from_be_bytes([a, b, c, d]);
    let mut reasons = match names::register(first / 8) {
        Some(&(register, ..)) => word_reasons(register, word),
        None => vec![format!("there is no register {}", first / 8)],
    };
    if first % 8 != 0 {
        reasons.push("bits 34 to 32 are not zero".into());
    }
    reasons
}

/// The grounds on which an illegal entry is so, in one line.
pub fn reason(entry: [u8; ENTRY_BYTES]) -> String {
    let reasons = reasons(entry);
    if reasons.is_empty() {
        return "the library refuses it, for a reason that this program does not know".into();
    }
    reasons.join(", ")
}

fn word_reasons(register: Register, word: u32) -> Vec<String> {
    match register {
        Register::Cmd => command_reasons(word),
        Register::Fore | Register::Back | Register::Mask | Register::Key => {
            above("", word, 255).into_iter().collect()
        }
        Register::Pctrl => pattern_reasons(word),
        Register::Xy2 => [("width ", word >> 16), ("height ", word & 0xFFFF)]
            .into_iter()
            .filter_map(|(name, side)| above(name, side, MAX_SIDE as u32))
            .collect(),
        Register::Xy3 => above("", word, 3).into_iter().collect(),
        Register::Lpat | Register::Clptl | Register::Clpbr | Register::Xy0 | Register::Xy1 => {
            Vec::new()
        }
    }
}

fn above(name: &str, number: u32, most: u32) -> Option<String> {
    (number > most).then(|| format!("{name}{number} is above {most}"))
}

fn command_reasons(word: u32) -> Vec<String> {
    let number = word >> 28;
    if names::opcode(number).is_none() {
        return vec![format!("there is no opcode {number}")];
    }
    if number == Opcode::Noop as u32 {
        let other = (word != 0).then(|| "NOOP with other bits set".into());
        return other.into_iter().collect();
    }
    let mut reasons: Vec<String> = STYLES
        .iter()
        .filter(|style| {
            style.opcodes.iter().any(|&opcode| opcode as u32 == number)
                && word & style.with.bits() == style.with.bits()
                && word & style.without.bits() == 0
        })
        .map(|style| style.why.into())
        .collect();
    let unused = word & unused_command_bits();
    if unused != 0 {
        reasons.push(format!("0x{unused:04X} is no flag"));
    }
    reasons
}

/// The fields of PCTRL as numbers: length, scale, place, repeat.
pub fn pattern_fields(word: u32) -> [u32; 4] {
    let length = match word & 31 {
        0 => u32::from(MAX_PATTERN_LENGTH),
        length => length,
    };
    let scale = word >> 5 & (u32::from(MAX_PATTERN_SCALE) - 1);
    [length, scale + 1, word >> 8 & 31, word >> 13 & 7]
}

fn pattern_reasons(word: u32) -> Vec<String> {
    let [length, scale, place, repeat] = pattern_fields(word);
    let mut reasons = Vec::new();
    if repeat >= scale {
        reasons.push(format!("repeat {repeat} is not below scale {scale}"));
    }
    if place >= length {
        reasons.push(format!("place {place} is not below length {length}"));
    }
    if word >> 16 != 0 {
        reasons.push("bits 31 to 16 are not zero".into());
    }
    reasons
}

#[cfg(test)]
mod tests {
    use super::{reason, reasons};
    use crate::judge::illegal_places;
    use compare::lists::{Size, doubtful_entry, entry, legal_entry};
    use compare::random::Random;
    use pramolyt::list::{ENTRY_BYTES, MAX_ENTRIES};

    /// So many random words are judged; the variable `WORDS` asks for another number.
    const WORDS: u64 = 12_000_000;

    /// Entries that wait to be held against the library's verdict, and how many were.
    #[derive(Default)]
    struct Held {
        waiting: Vec<u8>,
        legal: u64,
        illegal: u64,
    }

    impl Held {
        fn hold(&mut self, entry: [u8; ENTRY_BYTES]) {
            self.waiting.extend(entry);
            if self.waiting.len() == ENTRY_BYTES * MAX_ENTRIES {
                self.judge();
            }
        }

        /// Where the library refuses there is a reason, and only there.
        fn judge(&mut self) {
            let mut illegal = illegal_places(&self.waiting).into_iter().peekable();
            for (place, entry) in self.waiting.chunks_exact(ENTRY_BYTES).enumerate() {
                let refused = illegal.next_if_eq(&place).is_some();
                let entry: [u8; ENTRY_BYTES] = entry.try_into().expect("an entry");
                assert_eq!(!reasons(entry).is_empty(), refused, "{entry:02X?}");
                self.illegal += u64::from(refused);
                self.legal += u64::from(!refused);
            }
            self.waiting.clear();
        }

        /// At least so many of each came up.
        fn finish(mut self, least: u64) {
            self.judge();
            println!("{} legal and {} illegal entries", self.legal, self.illegal);
            assert!(self.legal >= least && self.illegal >= least);
        }
    }

    #[test]
    fn every_command_but_for_its_low_bits() {
        let mut held = Held::default();
        let mut random = Random::new(1);
        for high in 0..1 << 18 {
            held.hold(entry(0, high << 14));
            held.hold(entry(0, high << 14 | 1 << random.below(14)));
        }
        held.finish(1_000);
    }

    #[test]
    fn every_low_half_and_every_high_half() {
        let mut held = Held::default();
        for register in 0..32 {
            for half in 0..1 << 16 {
                held.hold(entry(register, half));
                for low in [0, 2_048, 2_049] {
                    held.hold(entry(register, half << 16 | low));
                }
            }
        }
        held.finish(500_000);
    }

    #[test]
    fn every_first_byte() {
        let mut held = Held::default();
        for first in 0..=u8::MAX {
            for word in [0, 1, 255, 256, 0x1380_0000, 0x2380_0000, u32::MAX] {
                let [a, b, c, d] = u32::to_be_bytes(word);
                held.hold([first, a, b, c, d]);
            }
        }
        held.finish(40);
    }

    #[test]
    fn random_words() {
        let words = std::env::var("WORDS").map_or(WORDS, |words| {
            words.parse().expect("WORDS is the number of random words")
        });
        let mut held = Held::default();
        let mut random = Random::new(2);
        let size = Size {
            width: 320,
            height: 200,
        };
        for at in 0..words {
            held.hold(match at % 4 {
                0 => legal_entry(&mut random, size),
                1 => doubtful_entry(&mut random, size),
                2 => entry(random.below(13) as usize, random.half()),
                _ => {
                    let mut near = legal_entry(&mut random, size);
                    near[random.below(5) as usize] ^= 1 << random.below(8);
                    near
                }
            });
        }
        held.finish(words / 8);
    }

    #[test]
    fn the_words_of_reasons() {
        for (register, word, why) in [
            (0, 0x1390_0000, "KEY with SOLID"),
            (0, 0x1330_0000, "KEY with STPL"),
            (0, 0x1340_0000, "TRNSP with neither SOLID nor STPL"),
            (0, 0x1380_4000, "APAT with SOLID"),
            (0, 0x1320_4000, "APAT with STPL"),
            (0, 0x1310_4000, "APAT with KEY"),
            (0, 0x1340_4000, "TRNSP with neither SOLID nor STPL"),
            (0, 0x138C_0000, "NLST with a blit, PRST with a blit"),
            (0, 0x2300_0000, "a line with neither SOLID nor STPL"),
            (
                0,
                0x5391_0000,
                "KEY with a line, SOURCE_VIRTUAL with a line",
            ),
            (0, 0x2380_4000, "APAT with a line"),
            (0, 0x1300_6000, "0x2000 is no flag"),
            (0, 0x2380_0003, "0x0003 is no flag"),
            (0, 0x0300_0000, "NOOP with other bits set"),
            (0, 0x3380_0000, "there is no opcode 3"),
            (1, 256, "256 is above 255"),
            (6, 0x2003, "repeat 1 is not below scale 1"),
            (6, 0x0303, "place 3 is not below length 3"),
            (6, 0x1_0003, "bits 31 to 16 are not zero"),
            (
                10,
                0x0801_0900,
                "width 2049 is above 2048, height 2304 is above 2048",
            ),
            (11, 4, "4 is above 3"),
            (13, 0, "there is no register 13"),
        ] {
            assert_eq!(reason(entry(register, word)), why);
        }
        assert_eq!(reason([0x61, 0, 4, 0, 2]), "bits 34 to 32 are not zero");
    }
}
