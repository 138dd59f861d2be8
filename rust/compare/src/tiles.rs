//! The kinds of tiled fill that have to come up: cut by a budget, in records whose tile is spoiled, and refused for their style
//! (document 02, R-7).

use crate::sides::Memories;
use reference::Record;
use reference::drawing::{Point, point};
use reference::entries::{Command, entry_at, flag, opcode, register};
use reference::state::State;

/// What the fills of a kind do, and whether a fill does it.
type Kind = (&'static str, fn(&Fill) -> bool);

/// The kinds that budgets have to cut.
pub const FILLS: [Kind; 14] = [
    ("has a whole tile", |fill| fill.outside() == [false; 4]),
    ("has a tile outside on the left alone", |fill| {
        fill.outside() == [true, false, false, false]
    }),
    ("has a tile outside on the right alone", |fill| {
        fill.outside() == [false, true, false, false]
    }),
    ("has a tile outside above alone", |fill| {
        fill.outside() == [false, false, true, false]
    }),
    ("has a tile outside below alone", |fill| {
        fill.outside() == [false, false, false, true]
    }),
    ("is clipped", |fill| fill.has(flag::CLIP)),
    ("keeps some bits by MASK", Fill::keeps_some_bits),
    ("is in the middle of a row", Fill::is_in_a_row),
    (
        "begins in the middle of the tile",
        Fill::begins_in_the_middle,
    ),
    (
        "has come to the tile's columns again",
        Fill::repeats_columns,
    ),
    ("has come to the tile's rows again", Fill::repeats_rows),
    ("has its tile in the other buffer", |fill| {
        !fill.in_one_buffer()
    }),
    ("has its tile in its own buffer", Fill::in_one_buffer),
    (
        "draws a pixel of the tile that has changed since",
        Fill::draws_a_changed_pixel,
    ),
];

/// What is wrong with the tile of a record that is malformed by it alone.
pub const SPOILED: [&str; 6] = [
    "a whole tile without its flag",
    "the flag of a tile that is not whole",
    "bytes of a tile that is not whole",
    "a flag without a tiled fill",
    "bytes without a tiled fill",
    "a flag above 1",
];

/// What is illegal with APAT and legal without it.
pub const ILLEGAL: [&str; 6] = ["NOOP", "SOLID", "STPL", "KEY", "LINE", "PLINE"];

/// A tiled fill under way.
pub struct Fill {
    state: State,
    /// The pixel of the tile that is drawn next, as it now stands in the source buffer; none where the tile is not whole.
    now: Option<u8>,
}

/// Whether it is a blit with APAT.
pub fn is_tiled(command: Command) -> bool {
    command.opcode() == opcode::BITBLT && command.has(flag::APAT)
}

impl Fill {
    /// The command that a well-formed record has under way; none where it has no tile.
    pub fn under_way(record: &Record, memories: &Memories) -> Option<Fill> {
        let state = record.state();
        let mut fill = state.is_tiled().then_some(Fill { state, now: None })?;
        if fill.outside() == [false; 4] {
            fill.now = Some(fill.source(memories)[fill.place()]);
        }
        Some(fill)
    }

    fn source<'a>(&self, memories: &'a Memories) -> &'a [u8] {
        let Memories { display, virt, .. } = memories;
        if self.has(flag::SOURCE) {
            virt
        } else {
            display
        }
    }

    /// Row and column of the tile that are drawn next.
    fn cell(&self) -> (usize, usize) {
        (self.next().y as usize % 8, self.next().x as usize % 16)
    }

    /// Their place in the source buffer, where the tile is whole.
    fn place(&self) -> usize {
        let (row, column) = self.cell();
        let Point { x, y } = self.corner();
        (y as usize + row) * self.state.width as usize + x as usize + column
    }

    fn has(&self, flag: u32) -> bool {
        self.state.command().has(flag)
    }

    fn corner(&self) -> Point {
        point(self.state.registers[register::XY0])
    }

    /// On which sides the tile lies outside: left, right, above, below.
    fn outside(&self) -> [bool; 4] {
        let Point { x, y } = self.corner();
        let (width, height) = (i64::from(self.state.width), i64::from(self.state.height));
        [x < 0, x + 16 > width, y < 0, y + 8 > height]
    }

    fn keeps_some_bits(&self) -> bool {
        !matches!(self.state.registers[register::MASK], 0 | 255)
    }

    /// The pixel of a visit.
    fn pixel(&self, visit: u32) -> Point {
        self.state.blit_pixel(register::XY1, visit)
    }

    fn first(&self) -> Point {
        self.pixel(0)
    }

    fn next(&self) -> Point {
        self.pixel(self.state.visited)
    }

    fn is_in_a_row(&self) -> bool {
        self.state.visited > 0 && self.pixel(self.state.visited - 1).y == self.next().y
    }

    fn begins_in_the_middle(&self) -> bool {
        self.first().x % 16 != 0 && self.first().y % 8 != 0
    }

    fn repeats_columns(&self) -> bool {
        self.first().y == self.next().y && (self.next().x - self.first().x).abs() >= 16
    }

    fn repeats_rows(&self) -> bool {
        (self.next().y - self.first().y).abs() >= 8
    }

    fn in_one_buffer(&self) -> bool {
        self.has(flag::SOURCE) == self.has(flag::DESTINATION)
    }

    fn draws_a_changed_pixel(&self) -> bool {
        let (row, column) = self.cell();
        self.now != self.state.tile.map(|tile| tile[row][column])
    }
}

/// Which of [`SPOILED`] a record is; the clauses by which it is malformed are given.
pub fn spoiled_kind(record: &Record, faults: &[&str]) -> Option<usize> {
    const FLAG: &str = "a flag is neither 0 nor 1";
    const TILE: &str = "the tile is not as the fill has it";
    let state = record.state();
    match faults {
        [FLAG] if record.tile_whole > 1 => Some(5),
        [TILE] if !state.is_tiled() => Some(if record.tile_whole == 1 { 3 } else { 4 }),
        [TILE] if state.tile_is_whole() => Some(0),
        [TILE] => Some(if record.tile_whole == 1 { 1 } else { 2 }),
        _ => None,
    }
}

/// Which of [`ILLEGAL`] the entry is at the place where a post was refused.
pub fn illegal_kind(list: &[u8], place: u64) -> Option<usize> {
    const APAT: u8 = 1 << (flag::APAT - 8);
    let at = usize::try_from(place).ok()?.checked_mul(5)?;
    let mut entry: [u8; 5] = list.get(at..)?.get(..5)?.try_into().ok()?;
    if entry[0] != 0 || entry[3] & APAT == 0 {
        return None;
    }
    entry[3] ^= APAT;
    let (_, word) = entry_at(&entry, 0)?;
    let command = Command(word);
    match command.opcode() {
        opcode::NOOP => Some(0),
        opcode::BITBLT if command.has(flag::SOLID) => Some(1),
        opcode::BITBLT if command.has(flag::STPL) => Some(2),
        opcode::BITBLT if command.has(flag::KEY) => Some(3),
        opcode::LINE => Some(4),
        opcode::PLINE => Some(5),
        _ => None,
    }
}

#[cfg(test)]
mod tests {
    use super::{FILLS, Fill, SPOILED, illegal_kind, spoiled_kind};
    use crate::sides::Memories;
    use reference::Record;

    const TILED: u32 = 0x1300_4000;
    const CLIP: u32 = 1 << 17;
    const FROM_VIRTUAL: u32 = 1 << 16;

    /// A fill of 40 by 20 on a board of that size, so many pixels visited, its tile of ones at XY0 where it is whole.
    fn record(cmd: u32, xy0: u32, visited: u32) -> Record {
        let mut record = Record::fresh(40, 20, 4);
        (record.cmd, record.xy0, record.visited) = (cmd, xy0, visited);
        (record.xy2, record.clpbr) = (0x0028_0014, 0x0027_0013);
        (record.under_way, record.active_taken, record.active_count) = (1, 1, 2);
        record.next = 1;
        let whole = record.state().tile_is_whole();
        record.tile_whole = u32::from(whole);
        record.tile = [[u8::from(whole); 16]; 8];
        record
    }

    /// What a fill does with a display of zeros and a virtual buffer of ones.
    fn does(record: &Record) -> Vec<&'static str> {
        let memories = Memories {
            list: Vec::new(),
            display: vec![0; 800],
            virt: vec![1; 800],
        };
        assert!(!record.malformed());
        let Some(fill) = Fill::under_way(record, &memories) else {
            return Vec::new();
        };
        let done = FILLS.iter().filter(|(_, does)| does(&fill));
        done.map(|(name, _)| *name).collect()
    }

    #[test]
    fn tile_and_place_decide() {
        let whole = "has a whole tile";
        let (own, other) = (
            "has its tile in its own buffer",
            "has its tile in the other buffer",
        );
        let changed = "draws a pixel of the tile that has changed since";
        let (in_row, columns, rows) = (
            "is in the middle of a row",
            "has come to the tile's columns again",
            "has come to the tile's rows again",
        );
        for (cmd, xy0, visited, expected) in [
            (TILED, 0, 0, vec![whole, own, changed]),
            (TILED | FROM_VIRTUAL, 0, 0, vec![whole, other]),
            (TILED, 0, 15, vec![whole, in_row, own, changed]),
            (TILED, 0, 16, vec![whole, in_row, columns, own, changed]),
            (TILED, 0, 280, vec![whole, own, changed]),
            (TILED, 0, 320, vec![whole, rows, own, changed]),
            (TILED | CLIP, 0, 0, vec![whole, "is clipped", own, changed]),
            (
                TILED,
                0xFFFF_0000,
                0,
                vec!["has a tile outside on the left alone", own],
            ),
            (
                TILED,
                0x0019_0000,
                0,
                vec!["has a tile outside on the right alone", own],
            ),
            (
                TILED,
                0x0000_FFFF,
                0,
                vec!["has a tile outside above alone", own],
            ),
            (
                TILED,
                0x0000_000D,
                0,
                vec!["has a tile outside below alone", own],
            ),
            (TILED, 0xFFFF_FFFF, 0, vec![own]),
            (0x1300_0000, 0xFFFF_FFFF, 0, vec![]),
        ] {
            assert_eq!(does(&record(cmd, xy0, visited)), expected);
        }
        let mut record = record(TILED, 0, 0);
        (record.mask, record.xy1) = (0x0F, 0x0001_0001);
        assert_eq!(
            does(&record),
            [
                whole,
                "keeps some bits by MASK",
                "begins in the middle of the tile",
                own,
                changed
            ]
        );
    }

    #[test]
    fn what_is_wrong_with_a_tile() {
        let kind = |xy0: u32, change: fn(&mut Record)| {
            let mut record = record(TILED, xy0, 0);
            change(&mut record);
            spoiled_kind(&record, &record.faults()).map(|kind| SPOILED[kind])
        };
        let outside = 0xFFFF_0000;
        assert_eq!(kind(0, |_| {}), None);
        assert_eq!(kind(0, |r| r.tile[1][1] = 9), None);
        assert_eq!(kind(0, |r| r.tile_whole = 0), Some(SPOILED[0]));
        assert_eq!(kind(outside, |r| r.tile_whole = 1), Some(SPOILED[1]));
        assert_eq!(kind(outside, |r| r.tile[1][1] = 9), Some(SPOILED[2]));
        assert_eq!(kind(0, |r| r.cmd = 0x1300_0000), Some(SPOILED[3]));
        let bytes_alone = |r: &mut Record| (r.cmd, r.tile_whole) = (0x1300_0000, 0);
        assert_eq!(kind(0, bytes_alone), Some(SPOILED[4]));
        assert_eq!(kind(0, |r| r.tile_whole = 2), Some(SPOILED[5]));
        assert_eq!(kind(0, |r| (r.tile_whole, r.next) = (0, 9)), None);
    }

    #[test]
    fn illegal_for_apat_alone() {
        for (word, expected) in [
            (0x0000_4000, Some(0)),
            (0x1380_4000, Some(1)),
            (0x13A0_4000, Some(1)),
            (0x1320_4000, Some(2)),
            (0x1310_4000, Some(3)),
            (0x2380_4000, Some(4)),
            (0x5320_4000, Some(5)),
            (0x1340_4000, None),
            (0x1300_6000, None),
            (0x1390_0000, None),
        ] {
            let mut list = vec![0; 10];
            list[6..].copy_from_slice(&u32::to_be_bytes(word));
            assert_eq!(illegal_kind(&list, 1), expected, "{word:#x}");
        }
        assert_eq!(illegal_kind(&[0; 10], 2), None);
    }
}
