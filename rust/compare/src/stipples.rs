//! The kinds of stippled blit that budgets have to cut: by style, by buffers, and by the bit that is read next.

use crate::lists::Size;
use reference::Record;
use reference::drawing::Point;
use reference::entries::{Command, flag, opcode, register};
use reference::state::State;

/// What the blits of a kind do, and whether a blit does it.
type Kind = (&'static str, fn(&Stipple) -> bool);

/// The kinds.
pub const STIPPLES: [Kind; 11] = [
    ("draws FORE and BACK", |blit| !blit.has(flag::TRNSP)),
    ("draws FORE alone", |blit| blit.has(flag::TRNSP)),
    ("is clipped", |blit| blit.has(flag::CLIP)),
    ("reads the other buffer", |blit| !blit.in_one_buffer()),
    ("reads its own buffer", Stipple::in_one_buffer),
    ("reads a byte that it visited", Stipple::reads_visited),
    ("reads the middle of a byte", Stipple::reads_a_middle),
    ("reads left of its buffer", |blit| blit.bit.x < 0),
    ("reads right of its buffer", Stipple::reads_right),
    ("reads above its buffer", |blit| blit.bit.y < 0),
    ("reads below its buffer", Stipple::reads_below),
];

/// A stippled blit under way.
pub struct Stipple {
    state: State,
    size: Size,
    /// The bit that it reads next.
    bit: Point,
}

/// Whether it is a blit with STPL that reads its bits.
pub fn reads_bits(command: Command) -> bool {
    is_stippled(command) && !command.has(flag::SOLID)
}

/// Whether it is a blit with STPL and SOLID, which reads none.
pub fn ignores_bits(command: Command) -> bool {
    is_stippled(command) && command.has(flag::SOLID)
}

fn is_stippled(command: Command) -> bool {
    command.opcode() == opcode::BITBLT && command.has(flag::STPL)
}

impl Stipple {
    /// The command that a record has under way; none where it reads no bits.
    pub fn under_way(record: &Record) -> Option<Stipple> {
        let state = record.state();
        reads_bits(state.command()).then(|| Stipple {
            bit: state.blit_pixel(register::XY0, state.visited),
            size: Size::of(record),
            state,
        })
    }

    fn has(&self, flag: u32) -> bool {
        self.state.command().has(flag)
    }

    fn in_one_buffer(&self) -> bool {
        self.has(flag::SOURCE) == self.has(flag::DESTINATION)
    }

    fn reads_visited(&self) -> bool {
        let byte = Point {
            x: self.bit.x.div_euclid(8),
            y: self.bit.y,
        };
        let corner = self.state.blit().corner;
        let visits = self.state.blit_visits();
        let mut visited = visits[..self.state.visited as usize].iter();
        self.in_one_buffer() && visited.any(|&offset| corner.moved(offset) == byte)
    }

    fn reads_a_middle(&self) -> bool {
        let columns = 0..8 * self.size.width;
        let rows = 0..self.size.height;
        let is_inside = columns.contains(&self.bit.x) && rows.contains(&self.bit.y);
        is_inside && self.bit.x % 8 != 0
    }

    fn reads_right(&self) -> bool {
        self.bit.x >= 8 * self.size.width
    }

    fn reads_below(&self) -> bool {
        self.bit.y >= self.size.height
    }
}

#[cfg(test)]
mod tests {
    use super::{STIPPLES, Stipple};
    use reference::Record;

    const STIPPLE: u32 = 0x1320_0000;
    const FROM_VIRTUAL: u32 = 0x1321_0000;

    /// What a blit of 4 by 1 does on a board of 4 by 2 after its first pixel.
    fn does(cmd: u32, xy0: u32, xy1: u32) -> Vec<&'static str> {
        let mut record = Record::fresh(4, 2, 1);
        (record.cmd, record.xy0, record.xy1) = (cmd, xy0, xy1);
        (record.xy2, record.visited) = (0x0004_0001, 1);
        let Some(blit) = Stipple::under_way(&record) else {
            return Vec::new();
        };
        let done = STIPPLES.iter().filter(|(_, does)| does(&blit));
        done.map(|(name, _)| *name).collect()
    }

    #[test]
    fn the_next_bit_decides() {
        for (what, cmd, xy0, xy1, expected) in [
            ("reads a byte that it visited", STIPPLE, 0, 0, true),
            ("reads a byte that it visited", STIPPLE, 0, 1 << 16, false),
            ("reads a byte that it visited", FROM_VIRTUAL, 0, 0, false),
            ("reads the middle of a byte", STIPPLE, 8 << 16, 0, true),
            ("reads the middle of a byte", STIPPLE, 7 << 16, 0, false),
            ("reads the middle of a byte", STIPPLE, 32 << 16, 0, false),
            ("reads left of its buffer", STIPPLE, 0xFFFE_0000, 0, true),
            ("reads left of its buffer", STIPPLE, 0xFFFF_0000, 0, false),
            ("reads right of its buffer", STIPPLE, 31 << 16, 0, true),
            ("reads right of its buffer", STIPPLE, 30 << 16, 0, false),
            ("reads above its buffer", STIPPLE, 0xFFFF, 0, true),
            ("reads below its buffer", STIPPLE, 2, 0, true),
            ("reads below its buffer", STIPPLE, 1, 0, false),
        ] {
            assert_eq!(does(cmd, xy0, xy1).contains(&what), expected, "{what}");
        }
    }

    #[test]
    fn blits_without_stpl_or_with_solid_read_no_bits() {
        assert!(does(0x1300_0000, 0, 0).is_empty());
        assert!(does(0x13A0_0000, 0, 0).is_empty());
    }
}
