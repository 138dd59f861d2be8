//! The kinds of partly hidden blit that have to come up: cut by a budget, with nothing to show, and in records whose visited
//! pixels lie near their count (document 02, R-6).

use reference::Record;
use reference::drawing::{Point, Window};
use reference::entries::{Command, entry_at, flag, opcode, register};
use reference::state::State;
use std::rc::Rc;

/// What the blits of a kind do, and whether a blit does it.
type Kind = (&'static str, fn(&Hidden) -> bool);

/// The kinds that budgets have to cut.
pub const CUT: [Kind; 12] = [
    ("shows one pixel in ten or less", Hidden::is_mostly_hidden),
    ("is 2,047 or more wide and high", Hidden::is_huge),
    ("is in the middle of a row", Hidden::is_in_a_row),
    ("is past its first row", Hidden::is_past_a_row),
    ("is hidden by the buffer alone", |blit| {
        !blit.has(flag::CLIP)
    }),
    ("is hidden by the clip alone", Hidden::is_in_the_buffer),
    ("shows one row", |blit| blit.rows().len() == 1),
    ("shows one column", |blit| blit.columns().len() == 1),
    ("has KEY", |blit| blit.has(flag::KEY)),
    ("reads outside its source", Hidden::reads_outside),
    ("reads the other buffer", |blit| blit.reads(true)),
    ("reads its own buffer", |blit| blit.reads(false)),
];

/// The ends that have to be hidden under each XY3.
pub const ENDS: [Kind; 4] = [
    ("first row", |blit| blit.rows()[0] != 0),
    ("last row", |blit| {
        blit.hides_its_end(blit.rows(), blit.size().1)
    }),
    ("first column", |blit| blit.columns()[0] != 0),
    ("last column", |blit| {
        blit.hides_its_end(blit.columns(), blit.size().0)
    }),
];

/// Why a blit has nothing to show.
pub const NOTHING: [&str; 4] = [
    "off the buffer",
    "under a reversed clip",
    "under a clip off the buffer",
    "beside the clip",
];

/// The visited pixels of a record, by the count and by width x height of XY2, which was the count before R-6.
pub const VISITED: [&str; 5] = [
    "one below the count",
    "at the count",
    "above the count",
    "one below the former count",
    "at the former count or above",
];

/// A blit under way that does not show all its pixels.
pub struct Hidden {
    state: State,
    shown: Rc<[Point]>,
}

fn is_blit(command: Command) -> bool {
    command.opcode() == opcode::BITBLT
}

impl Hidden {
    /// The command that a well-formed record has under way; none where it hides nothing.
    pub fn under_way(record: &Record) -> Option<Hidden> {
        let state = record.state();
        let hidden = is_blit(state.command()).then(|| Hidden {
            shown: state.blit_visits(),
            state,
        })?;
        (hidden.shown.len() < hidden.pixels()).then_some(hidden)
    }

    fn has(&self, flag: u32) -> bool {
        self.state.command().has(flag)
    }

    fn size(&self) -> (i64, i64) {
        let (width, height) = self.state.blit().size;
        (width.into(), height.into())
    }

    fn pixels(&self) -> usize {
        (self.size().0 * self.size().1) as usize
    }

    /// The numbers of the rows that show, counted from the corner.
    fn rows(&self) -> Vec<i64> {
        let first = self.shown[0];
        let column = self.shown.iter().filter(|offset| offset.x == first.x);
        column.map(|offset| offset.y.abs()).collect()
    }

    /// The numbers of the columns that show, counted from the corner.
    fn columns(&self) -> Vec<i64> {
        let first = self.shown[0];
        let row = self.shown.iter().filter(|offset| offset.y == first.y);
        row.map(|offset| offset.x.abs()).collect()
    }

    fn hides_its_end(&self, numbers: Vec<i64>, length: i64) -> bool {
        numbers.last() != Some(&(length - 1))
    }

    fn is_mostly_hidden(&self) -> bool {
        10 * self.shown.len() <= self.pixels()
    }

    fn is_huge(&self) -> bool {
        self.size().0 >= 2_047 && self.size().1 >= 2_047
    }

    /// The visits before and after the cut.
    fn around(&self) -> (Point, Point) {
        let next = self.state.visited as usize;
        (self.shown[next.saturating_sub(1)], self.shown[next])
    }

    fn is_in_a_row(&self) -> bool {
        let (before, after) = self.around();
        before.y == after.y && before.x != after.x
    }

    fn is_past_a_row(&self) -> bool {
        self.around().1.y != self.shown[0].y
    }

    /// The whole rectangle, from its corner to the opposite one.
    fn is_in_the_buffer(&self) -> bool {
        let blit = self.state.blit();
        let (width, height) = self.size();
        let back = |bit, length: i64| {
            if blit.direction & bit == bit {
                1 - length
            } else {
                length - 1
            }
        };
        let opposite = Point {
            x: back(2, width),
            y: back(1, height),
        };
        let ends = [blit.corner, blit.corner.moved(opposite)];
        self.has(flag::CLIP) && ends.iter().all(|&end| self.is_inside(end))
    }

    /// Of a copy of bytes: the pixel that it reads next lies outside.
    fn reads_outside(&self) -> bool {
        let source = self.state.blit_pixel(register::XY0, self.state.visited);
        let others = [flag::SOLID, flag::STPL, flag::APAT];
        !others.iter().any(|&flag| self.has(flag)) && !self.is_inside(source)
    }

    fn is_inside(&self, p: Point) -> bool {
        let buffer = Window {
            clip: None,
            ..self.state.blit().window
        };
        buffer.holds(p)
    }

    /// Reads a buffer: the other one, or its own.
    fn reads(&self, other: bool) -> bool {
        let between = self.has(flag::SOURCE) != self.has(flag::DESTINATION);
        !self.has(flag::SOLID) && between == other
    }
}

/// Which of [`NOTHING`] the blit is that a run triggered in its last step, if it has pixels and shows none.
pub fn nothing_to_show(record: &Record, list: &[u8]) -> Option<usize> {
    let state = record.state();
    let blit = state.blit();
    let before = (record.next as usize).checked_sub(1)?;
    let is_trigger = entry_at(list, before) == Some((register::XY1, record.xy1));
    let triggered = record.next > record.active_start && record.under_way == 0 && is_trigger;
    if !triggered || !is_blit(state.command()) || blit.size.0 == 0 || blit.size.1 == 0 {
        return None;
    }
    if state.pixel_count() > 0 {
        return None;
    }
    let (width, height) = (i64::from(state.width), i64::from(state.height));
    Some(match blit.window.clip {
        None => 0,
        Some((a, b)) if a.x > b.x || a.y > b.y => 1,
        Some((a, b)) if b.x < 0 || b.y < 0 || a.x >= width || a.y >= height => 2,
        Some(_) => 3,
    })
}

/// Which of [`VISITED`] a record has that hides pixels of a blit under way; the clauses by which it is malformed are given.
pub fn visited_kinds(record: &Record, faults: &[&str]) -> Vec<usize> {
    const FAULT: &str = "the visited pixels are not below the command's count";
    if record.under_way != 1 || !(faults.is_empty() || faults == [FAULT]) {
        return Vec::new();
    }
    let state = record.state();
    let (width, height) = state.blit().size;
    let former = u64::from(width) * u64::from(height);
    let (count, visited) = (state.pixel_count(), u64::from(record.visited));
    if !is_blit(state.command()) || count >= former {
        return Vec::new();
    }
    let is = [
        visited + 1 == count,
        visited == count,
        count < visited && visited < former,
        count < former - 1 && visited == former - 1,
        visited >= former,
    ];
    (0..VISITED.len()).filter(|&kind| is[kind]).collect()
}

#[cfg(test)]
mod tests {
    use super::{CUT, ENDS, Hidden, nothing_to_show, visited_kinds};
    use reference::Record;

    const FILL: u32 = 0x1380_0000;
    const COPY: u32 = 0x1300_0000;
    const CLIP: u32 = 1 << 17;

    /// A blit of 4 by 3 from the corner on a board of 4 by 3, its clip from (1, 1) to (2, 9), one pixel visited.
    fn record(cmd: u32, xy1: u32, xy3: u32) -> Record {
        let mut record = Record::fresh(4, 3, 4);
        (record.cmd, record.xy1, record.xy3) = (cmd, xy1, xy3);
        (record.xy2, record.visited) = (0x0004_0003, 1);
        (record.clptl, record.clpbr) = (0x0001_0001, 0x0002_0009);
        (record.under_way, record.active_taken, record.active_count) = (1, 1, 2);
        record.next = 1;
        record
    }

    fn does(record: &Record) -> Vec<&'static str> {
        let Some(blit) = Hidden::under_way(record) else {
            return Vec::new();
        };
        let kinds = CUT.iter().chain(&ENDS);
        let done = kinds.filter(|(_, does)| does(&blit));
        done.map(|(name, _)| *name).collect()
    }

    #[test]
    fn what_shows_decides() {
        assert!(does(&record(FILL, 0, 0)).is_empty());
        for (cmd, xy1, xy3, expected) in [
            (
                FILL | CLIP,
                0,
                0,
                vec![
                    "is in the middle of a row",
                    "is hidden by the clip alone",
                    "first row",
                    "first column",
                    "last column",
                ],
            ),
            (
                COPY,
                0x0001_0000,
                1,
                vec![
                    "is in the middle of a row",
                    "is hidden by the buffer alone",
                    "shows one row",
                    "reads its own buffer",
                    "last row",
                    "last column",
                ],
            ),
            (
                COPY | 1 << 16,
                0,
                2,
                vec![
                    "is past its first row",
                    "is hidden by the buffer alone",
                    "shows one column",
                    "reads the other buffer",
                    "last column",
                ],
            ),
            (
                COPY | 1 << 15,
                0xFFFF_0000,
                0,
                vec![
                    "is in the middle of a row",
                    "is hidden by the buffer alone",
                    "reads the other buffer",
                    "first column",
                ],
            ),
        ] {
            assert_eq!(does(&record(cmd, xy1, xy3)), expected);
        }
    }

    #[test]
    fn why_nothing_shows() {
        let list = [0x60, 0, 4, 0, 0, 0, 0, 0, 0, 0, 0x60, 0, 0, 0, 0];
        for (next, cmd, clptl, clpbr, expected) in [
            (1, FILL, 0, 0, Some(0)),
            (1, FILL | CLIP, 0x0001_0000, 0, Some(1)),
            (1, FILL | CLIP, 0x0004_0000, 0x0009_0009, Some(2)),
            (1, FILL | CLIP, 0, 0, Some(3)),
            (2, FILL, 0, 0, None),
            (0, FILL, 0, 0, None),
            (1, 0x2380_0000, 0, 0, None),
        ] {
            let mut record = record(cmd, 0x0004_0000, 0);
            (record.next, record.under_way, record.visited) = (next, 0, 0);
            (record.clptl, record.clpbr) = (clptl, clpbr);
            assert_eq!(nothing_to_show(&record, &list), expected);
        }
    }

    #[test]
    fn visited_pixels_near_their_count() {
        for (visited, expected) in [
            (0, vec![]),
            (3, vec![0]),
            (4, vec![1]),
            (5, vec![2]),
            (11, vec![2, 3]),
            (12, vec![4]),
        ] {
            let mut record = record(FILL | CLIP, 0, 0);
            record.visited = visited;
            assert_eq!(visited_kinds(&record, &record.faults()), expected);
        }
        assert!(visited_kinds(&record(FILL, 0, 0), &[]).is_empty());
    }
}
