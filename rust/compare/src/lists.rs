//! Random entries of display lists: mostly legal, of every register and command, on the board, near it and far from it.

use crate::random::Random;
use reference::entries::register::{
    BACK, CLPBR, CLPTL, CMD, COUNT, FORE, LPAT, MASK, PCTRL, XY0, XY1, XY2, XY3,
};
use reference::entries::{flag, opcode};
use reference::{Record, drawing};
use std::ops::RangeInclusive;

/// Bytes of an entry.
pub const ENTRY: usize = 5;

/// How often each register is written, by its number.
const OFTEN: [u64; COUNT] = [8, 2, 2, 2, 2, 2, 3, 2, 2, 6, 5, 4, 12];

/// The fill styles of blits, without STPL, with it, and with APAT.
const PLAIN: [&[u32]; 6] = [
    &[flag::SOLID],
    &[flag::SOLID, flag::TRNSP],
    &[],
    &[],
    &[flag::KEY],
    &[flag::KEY],
];
const STIPPLED: [&[u32]; 6] = [
    &[flag::STPL],
    &[flag::STPL],
    &[flag::STPL, flag::TRNSP],
    &[flag::STPL, flag::TRNSP],
    &[flag::SOLID, flag::STPL],
    &[flag::SOLID, flag::STPL, flag::TRNSP],
];

const TILED: [&[u32]; 1] = [&[flag::APAT]];

/// Entries that are not legal, or only just.
const DOUBTFUL: [(usize, u32); 35] = [
    (CMD, 0x0100_0000),
    (CMD, 0x0000_8000),
    (CMD, 0x2300_0000),
    (CMD, 0x3380_0000),
    (CMD, 0x1340_0000),
    (CMD, 0x1390_0000),
    (CMD, 0x1320_0000),
    (CMD, 0x1360_0000),
    (CMD, 0x1330_0000),
    (CMD, 0x13B0_0000),
    (CMD, 0x1328_0000),
    (CMD, 0x1324_0000),
    (CMD, 0x2381_0000),
    (CMD, 0x5390_0000),
    (CMD, 0x0000_4000),
    (CMD, 0x1300_4000),
    (CMD, 0x1300_2000),
    (CMD, 0x1340_4000),
    (CMD, 0x1380_4000),
    (CMD, 0x1320_4000),
    (CMD, 0x1310_4000),
    (CMD, 0x2380_4000),
    (CMD, 0x5320_4000),
    (MASK, 255),
    (MASK, 256),
    (PCTRL, 0x2003),
    (PCTRL, 0x0303),
    (PCTRL, 0x0203),
    (PCTRL, 0x1F00),
    (PCTRL, 0x0010_0000),
    (XY2, 0x0800_0800),
    (XY2, 0x0801_0000),
    (XY2, 0x0000_0801),
    (XY3, 3),
    (XY3, 4),
];

/// A board's size, which the coordinates go by.
#[derive(Clone, Copy)]
pub struct Size {
    /// Pixels in a row.
    pub width: i64,
    /// Rows.
    pub height: i64,
}

impl Size {
    /// The size that a record has, kept within the limits.
    pub fn of(record: &Record) -> Size {
        let side = |word: u32| i64::from(word.clamp(1, 2_048));
        Size {
            width: side(record.width),
            height: side(record.height),
        }
    }

    fn has_room_for_a_tile(self) -> bool {
        self.width >= 16 && self.height >= 8
    }
}

/// The bytes of an entry.
pub fn entry(register: usize, data: u32) -> [u8; ENTRY] {
    let [a, b, c, d] = data.to_be_bytes();
    [(register << 3) as u8, a, b, c, d]
}

/// A list of so many entries, each legal but perhaps one.
pub fn list(random: &mut Random, size: Size, entries: usize) -> Vec<u8> {
    let mut bytes = Vec::with_capacity(entries * ENTRY);
    for _ in 0..entries {
        bytes.extend(legal_entry(random, size));
    }
    if random.one_in(3) {
        let glyph = glyph(random, size);
        put_anywhere(random, &mut bytes, &glyph);
    }
    if random.one_in(8) {
        let blit = hidden_blit(random, size);
        put_anywhere(random, &mut bytes, &blit);
    }
    if random.one_in(if size.has_room_for_a_tile() { 3 } else { 12 }) {
        let fill = tiled_fill(random, size);
        put_anywhere(random, &mut bytes, &fill);
    }
    if random.one_in(100) {
        let line = crossing_line(random, size);
        put_anywhere(random, &mut bytes, &line);
    }
    if random.one_in(8) {
        let entry = doubtful_entry(random, size);
        put_anywhere(random, &mut bytes, &entry);
    }
    bytes
}

/// Puts entries over some of a list's, where it has so many.
fn put_anywhere(random: &mut Random, list: &mut [u8], entries: &[u8]) {
    if let Some(room) = list.len().checked_sub(entries.len()) {
        let at = random.below((room / ENTRY) as u64 + 1) as usize * ENTRY;
        list[at..at + entries.len()].copy_from_slice(entries);
    }
}

/// A line from far on the one side of the board, across it, to far on the other side.
fn crossing_line(random: &mut Random, size: Size) -> Vec<u8> {
    let far = |random: &mut Random| match random.below(8) {
        0 => random.between(-32_768, 32_767),
        _ => random.pick(&[-32_768, 32_767]),
    };
    let (x, y) = (far(random), far(random));
    let across = |random: &mut Random, from: i64, limit: i64| {
        (2 * random.between(0, limit) - from).clamp(-32_768, 32_767)
    };
    let end = halves(
        across(random, x, size.width),
        across(random, y, size.height),
    );
    let command = opcode::LINE << 28 | 3 << 24 | line_flags(random);
    entries(&[(CMD, command), (XY0, halves(x, y)), (XY1, end)])
}

/// A blit with STPL. Every other one draws near the bytes of its bits, and in one buffer it then reads what it wrote.
fn glyph(random: &mut Random, size: Size) -> Vec<u8> {
    let flags = blit_flags(random, &STIPPLED);
    let command = opcode::BITBLT << 28 | raster_code(random) << 24 | flags;
    let from = bit_position(random, size);
    let to = if random.one_in(2) {
        point(random, size)
    } else {
        let bit = drawing::point(from);
        let x = bit.x.div_euclid(8) + random.between(-3, 3);
        halves(x, bit.y + random.between(-1, 1))
    };
    entries(&[
        (FORE, colour(random)),
        (BACK, colour(random)),
        (CMD, command),
        (XY0, from),
        (XY2, extent(random, size)),
        (XY3, random.below(4) as u32),
        (XY1, to),
    ])
}

/// A blit that lies partly or wholly off the board, under a clip of any kind. The blits after it are small again.
fn hidden_blit(random: &mut Random, size: Size) -> Vec<u8> {
    let styles = if random.one_in(3) { &STIPPLED } else { &PLAIN };
    let flags = blit_flags(random, styles);
    let (width, height) = hidden_extent(random, size);
    let direction = random.below(4) as u32;
    let corner = |random: &mut Random| {
        let left = hidden_side(random, width, size.width);
        let top = hidden_side(random, height, size.height);
        named_corner(direction, (left, top), (width, height))
    };
    let to = corner(random);
    let from = match random.below(3) {
        0 => corner(random),
        1 => (to.0 + random.between(-3, 3), to.1 + random.between(-1, 1)),
        _ => (
            random.between(-3, size.width),
            random.between(-3, size.height),
        ),
    };
    let (top_left, bottom_right) = clip(random, size);
    entries(&[
        (CLPTL, top_left),
        (CLPBR, bottom_right),
        (FORE, colour(random)),
        (
            CMD,
            opcode::BITBLT << 28 | raster_code(random) << 24 | flags,
        ),
        (XY0, halves(from.0, from.1)),
        (XY2, halves(width, height)),
        (XY3, direction),
        (XY1, halves(to.0, to.1)),
        (XY2, extent(random, size)),
    ])
}

/// The corner of a rectangle that a direction begins at.
fn named_corner(
    direction: u32,
    (left, top): (i64, i64),
    (width, height): (i64, i64),
) -> (i64, i64) {
    let along = |bit, first, length| {
        if direction & bit == bit {
            first + length - 1
        } else {
            first
        }
    };
    (along(2, left, width), along(1, top, height))
}

/// A fill with a tile. Every other one lies over the place of its tile, and in one buffer it then draws over the tile.
fn tiled_fill(random: &mut Random, size: Size) -> Vec<u8> {
    let flags = blit_flags(random, &TILED);
    let tile = (
        tile_side(random, 16, size.width),
        tile_side(random, 8, size.height),
    );
    let (width, height) = (
        random.between(1, size.width.min(40) + 2),
        random.between(1, size.height.min(20) + 2),
    );
    let direction = random.below(4) as u32;
    let to = if random.one_in(2) {
        point(random, size)
    } else {
        let left = random.between(tile.0 - width + 1, tile.0 + 15);
        let top = random.between(tile.1 - height + 1, tile.1 + 7);
        let (x, y) = named_corner(direction, (left, top), (width, height));
        halves(x, y)
    };
    entries(&[
        (MASK, legal_data(random, size, MASK)),
        (
            CMD,
            opcode::BITBLT << 28 | raster_code(random) << 24 | flags,
        ),
        (XY0, halves(tile.0, tile.1)),
        (XY2, halves(width, height)),
        (XY3, direction),
        (XY1, to),
    ])
}

/// Where a side of a tile begins: mostly so that it lies inside, where it fits, just outside, or anywhere.
fn tile_side(random: &mut Random, length: i64, limit: i64) -> i64 {
    let last = limit - length;
    match random.weighted(&[12, 1, 1, 1]) {
        0 => random.between(0, last.max(0)),
        1 => -1,
        2 => last + 1,
        _ => coordinate(random, limit),
    }
}

/// Width and height of a blit that is mostly larger than the board.
fn hidden_extent(random: &mut Random, size: Size) -> (i64, i64) {
    const HUGE: [i64; 2] = [2_047, 2_048];
    let larger = |random: &mut Random, limit: i64| random.between(1, (3 * limit + 8).min(2_048));
    match random.weighted(&[250, 30, 10, 10, 1]) {
        0 => (larger(random, size.width), larger(random, size.height)),
        1 => (random.between(1, 200), random.between(1, 200)),
        2 => (random.pick(&HUGE), random.between(1, 40)),
        3 => (random.between(1, 40), random.pick(&HUGE)),
        _ => (random.pick(&HUGE), random.pick(&HUGE)),
    }
}

/// Where a side so long begins: before the board, inside it, so that it ends inside or covers it, or just off it.
fn hidden_side(random: &mut Random, length: i64, limit: i64) -> i64 {
    match random.weighted(&[6, 6, 3, 1]) {
        0 => random.between(0, limit - 1) - length + 1,
        1 => random.between(0, limit - 1),
        2 => random.between(limit.min(length) - length, 0),
        _ => random.pick(&[-length - 1, -length, limit, limit + 1]),
    }
}

/// A clip rectangle: one pixel, one row or column, reversed, off the board, inside it, or without an end.
fn clip(random: &mut Random, size: Size) -> (u32, u32) {
    let on_board = |random: &mut Random| {
        let x = random.between(0, size.width - 1);
        (x, random.between(0, size.height - 1))
    };
    let (a, b) = (on_board(random), on_board(random));
    let low = (a.0.min(b.0), a.1.min(b.1));
    let high = (a.0.max(b.0), a.1.max(b.1));
    let (first, last) = match random.weighted(&[2, 2, 2, 1, 1, 4, 1, 3]) {
        0 => (a, a),
        1 => ((a.0, -32_768), (a.0, 32_767)),
        2 => ((-32_768, a.1), (32_767, a.1)),
        3 => random.pick(&[(a, (a.0 - 1, a.1)), (a, (a.0, a.1 - 1))]),
        4 => random.pick(&[
            ((-9, -9), (-1, 99)),
            ((-9, -9), (99, -1)),
            ((size.width, 0), (3_000, 99)),
            ((0, size.height), (99, 3_000)),
        ]),
        5 => (low, high),
        6 => ((-32_768, -32_768), (32_767, 32_767)),
        _ => {
            let top_left = clip_corner(random, size, (0, 0));
            return (
                top_left,
                clip_corner(random, size, (size.width, size.height)),
            );
        }
    };
    (halves(first.0, first.1), halves(last.0, last.1))
}

fn entries(list: &[(usize, u32)]) -> Vec<u8> {
    let bytes = |&(register, data): &(usize, u32)| entry(register, data);
    list.iter().flat_map(bytes).collect()
}

/// A legal entry.
pub fn legal_entry(random: &mut Random, size: Size) -> [u8; ENTRY] {
    let register = random.weighted(&OFTEN);
    entry(register, legal_data(random, size, register))
}

/// An entry that is not legal, or only just.
pub fn doubtful_entry(random: &mut Random, size: Size) -> [u8; ENTRY] {
    let mut bytes = legal_entry(random, size);
    match random.below(5) {
        0 => bytes[0] |= random.between(1, 7) as u8,
        1 => bytes[0] = (random.between(13, 31) << 3) as u8,
        2 => bytes[random.below(5) as usize] ^= 1 << random.below(8),
        3 => return entry(random.below(COUNT as u64) as usize, random.half()),
        _ => {
            let (register, data) = random.pick(&DOUBTFUL);
            return entry(register, data);
        }
    }
    bytes
}

/// Data that the register may hold.
pub fn legal_data(random: &mut Random, size: Size, register: usize) -> u32 {
    match register {
        CMD => command(random),
        MASK => any_or(random, 0x00..=0xFF, &[0xFF, 0xFF, 0x0F, 0xF0, 0x00]) as u32,
        LPAT => any_or(random, 0..=0xFFFF_FFFF, &[0, 5, 0xAAAA_AAAA, 0xFFFF_FFFF]) as u32,
        PCTRL => pattern_control(random),
        CLPTL => clip_corner(random, size, (0, 0)),
        CLPBR => clip_corner(random, size, (size.width, size.height)),
        XY0 if random.one_in(6) => bit_position(random, size),
        XY0 | XY1 => point(random, size),
        XY2 => extent(random, size),
        XY3 => random.below(4) as u32,
        _ => colour(random),
    }
}

/// A number of the range, or one of the values.
fn any_or(random: &mut Random, range: RangeInclusive<i64>, values: &[i64]) -> i64 {
    if random.one_in(3) {
        random.between(*range.start(), *range.end())
    } else {
        random.pick(values)
    }
}

/// Half of the colours are few, so that KEY finds its pixels.
fn colour(random: &mut Random) -> u32 {
    random.half() & random.pick(&[0xFF, 0x03])
}

fn command(random: &mut Random) -> u32 {
    let opcodes = [opcode::NOOP, opcode::BITBLT, opcode::LINE, opcode::PLINE];
    let opcode = opcodes[random.weighted(&[1, 10, 6, 6])];
    let code = raster_code(random);
    let flags = match opcode {
        opcode::NOOP => return 0,
        opcode::BITBLT if random.one_in(8) => blit_flags(random, &TILED),
        opcode::BITBLT if random.one_in(3) => blit_flags(random, &STIPPLED),
        opcode::BITBLT => blit_flags(random, &PLAIN),
        _ => line_flags(random),
    };
    opcode << 28 | code << 24 | flags
}

fn raster_code(random: &mut Random) -> u32 {
    any_or(random, 0..=15, &[3, 3, 0, 6, 12, 15]) as u32
}

fn blit_flags(random: &mut Random, styles: &[&[u32]]) -> u32 {
    let free = bits(&[flag::CLIP, flag::SOURCE, flag::DESTINATION]);
    bits(random.pick(styles)) | random.half() & free
}

fn line_flags(random: &mut Random) -> u32 {
    let styles: [&[u32]; 4] = [
        &[flag::SOLID],
        &[flag::STPL],
        &[flag::STPL],
        &[flag::SOLID, flag::STPL],
    ];
    let free = bits(&[
        flag::TRNSP,
        flag::NLST,
        flag::PRST,
        flag::CLIP,
        flag::DESTINATION,
    ]);
    bits(random.pick(&styles)) | random.half() & free
}

fn bits(flags: &[u32]) -> u32 {
    flags.iter().map(|flag| 1 << flag).sum()
}

/// Any length, place, scale and repeat.
fn pattern_control(random: &mut Random) -> u32 {
    let length = any_or(random, 1..=32, &[1, 2, 3, 8, 31, 32]);
    let place = any_or(random, 0..=length - 1, &[0, length - 1]);
    let scale = any_or(random, 1..=8, &[1, 2]);
    let repeat = any_or(random, 0..=scale - 1, &[0, scale - 1]);
    (repeat << 13 | place << 8 | (scale - 1) << 5 | (length % 32)) as u32
}

/// A corner of the clip rectangle: near its own corner of the board, or anywhere, which makes some clips reversed.
fn clip_corner(random: &mut Random, size: Size, own: (i64, i64)) -> u32 {
    if random.one_in(6) {
        return point(random, size);
    }
    let near = |random: &mut Random, limit: i64, at: i64| {
        let reach = (limit / 3).clamp(1, 20);
        at + random.between(-reach, reach)
    };
    let x = near(random, size.width, own.0);
    let y = near(random, size.height, own.1);
    halves(x, y)
}

fn halves(high: i64, low: i64) -> u32 {
    u32::from(high as u16) << 16 | u32::from(low as u16)
}

/// A point on the board, mostly; near it; or anywhere up to the extremes of 16 bits.
pub fn point(random: &mut Random, size: Size) -> u32 {
    let x = coordinate(random, size.width);
    let y = coordinate(random, size.height);
    halves(x, y)
}

/// A bit of a buffer as a point: each byte of a row is eight columns.
fn bit_position(random: &mut Random, size: Size) -> u32 {
    let bits = Size {
        width: 8 * size.width,
        ..size
    };
    point(random, bits)
}

fn coordinate(random: &mut Random, limit: i64) -> i64 {
    let edge = limit.min(8);
    match random.weighted(&[700, 400, 400, 600, 80, 2, 1]) {
        0 => random.between(0, limit - 1),
        1 => random.between(0, edge - 1),
        2 => random.between(limit - edge, limit - 1),
        3 => random.between(-3, limit + 2),
        4 => random.between(-40 - limit, 2 * limit + 40),
        5 => random.pick(&[-32_768, -32_767, 32_766, 32_767]),
        _ => random.between(-32_768, 32_767),
    }
}

/// Width and height of a blit. Where the one is great, the other is mostly small.
fn extent(random: &mut Random, size: Size) -> u32 {
    const PIXELS: i64 = 500;
    let width = side(random, size.width);
    let height = side(random, size.height);
    if width * height <= PIXELS || random.one_in(30) {
        halves(width, height)
    } else if random.one_in(2) {
        halves(width, height % (PIXELS / width + 2))
    } else {
        halves(width % (PIXELS / height + 2), height)
    }
}

fn side(random: &mut Random, limit: i64) -> i64 {
    match random.weighted(&[2, 3, 30, 20, 6, 1]) {
        0 => 0,
        1 => 1,
        2 => random.between(1, limit.min(10) + 2),
        3 => random.between(1, limit + 2),
        4 => limit,
        _ => random.pick(&[2_047, 2_048]),
    }
}

#[cfg(test)]
mod tests {
    use super::{ENTRY, Size, doubtful_entry, glyph, hidden_blit, legal_entry, tiled_fill};
    use crate::random::Random;
    use reference::entries::entry_at;

    const SIZE: Size = Size {
        width: 7,
        height: 5,
    };

    #[test]
    fn legal_entries_are_legal_and_doubtful_ones_often_not() {
        let mut random = Random::new(1);
        let is_legal = |entry: [u8; ENTRY]| entry_at(&entry, 0).is_some();
        assert!((0..10_000).all(|_| is_legal(legal_entry(&mut random, SIZE))));
        let legal = (0..1_000).filter(|_| is_legal(doubtful_entry(&mut random, SIZE)));
        assert!((50..500).contains(&legal.count()));
    }

    #[test]
    fn glyphs_hidden_blits_and_tiled_fills_are_legal() {
        let mut random = Random::new(1);
        for blit in [glyph, hidden_blit, tiled_fill] {
            for _ in 0..1_000 {
                let blit = blit(&mut random, SIZE);
                assert!((0..blit.len() / ENTRY).all(|place| entry_at(&blit, place).is_some()));
            }
        }
    }
}
