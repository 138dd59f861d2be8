//! "Pixels": what the visit of one pixel does to the buffers and to the pattern
//! state. "Coordinates are plain whole numbers and never wrap at 16 bits."

use crate::blits::Blit;
use crate::entries::{flag, opcode, pattern_control, register};
use crate::state::State;
use std::rc::Rc;

/// A pixel's place, anywhere in the plane.
#[derive(Clone, Copy, PartialEq, Eq, Debug)]
pub struct Point {
    pub x: i64,
    pub y: i64,
}

impl Point {
    /// The pixel so far from this one.
    pub fn moved(self, by: Point) -> Point {
        Point {
            x: self.x + by.x,
            y: self.y + by.y,
        }
    }
}

/// "x in the high half, y in the low half (000), each two's complement".
pub fn point(word: u32) -> Point {
    Point {
        x: i64::from((word >> 16) as u16 as i16),
        y: i64::from(word as u16 as i16),
    }
}

/// What lets pixels through: the destination buffer, and the clip from CLPTL to CLPBR
/// with CLIP.
#[derive(Clone, Copy, PartialEq, Eq, Debug)]
pub struct Window {
    pub width: u32,
    pub height: u32,
    pub clip: Option<(Point, Point)>,
}

impl Window {
    /// Not "outside the destination buffer", nor "with CLIP set outside CLPTL to CLPBR
    /// (both corners inside)".
    pub fn holds(&self, p: Point) -> bool {
        let (width, height) = (i64::from(self.width), i64::from(self.height));
        let in_buffer = 0 <= p.x && p.x < width && 0 <= p.y && p.y < height;
        in_buffer && self.clip.is_none_or(|clip| in_clip(clip, p))
    }
}

/// "CLPTL to CLPBR (both corners inside)". "A reversed clip draws nothing."
fn in_clip((top_left, bottom_right): (Point, Point), p: Point) -> bool {
    top_left.x <= p.x && p.x <= bottom_right.x && top_left.y <= p.y && p.y <= bottom_right.y
}

/// The two buffers lent for drawing, "each exactly width x height bytes": 0 the
/// display buffer, 1 the virtual buffer.
pub struct Buffers<'a> {
    pub width: u32,
    pub height: u32,
    pub pixels: [&'a mut [u8]; 2],
}

impl Buffers<'_> {
    /// "pixel (x, y) at y x width + x"; none outside the buffer.
    pub(crate) fn index(&self, p: Point) -> Option<usize> {
        let (width, height) = (i64::from(self.width), i64::from(self.height));
        let inside = 0 <= p.x && p.x < width && 0 <= p.y && p.y < height;
        inside.then(|| (p.y * width + p.x) as usize)
    }
}

/// "Raster: the new bit is bit 3 - 2s - d of the code, s source bit, d old bit.
/// Where the MASK bit is 0 the old bit stays."
pub fn raster(code: u32, mask: u8, source: u8, old: u8) -> u8 {
    let mut new = 0;
    for bit in 0..8 {
        let s = u32::from(source >> bit & 1);
        let d = u32::from(old >> bit & 1);
        let masked_in = mask >> bit & 1 == 1;
        let new_bit = if masked_in {
            code >> (3 - 2 * s - d) & 1
        } else {
            d
        };
        new |= (new_bit as u8) << bit;
    }
    new
}

/// "n = max(|dx|, |dy|)".
pub fn line_length(a: Point, b: Point) -> i64 {
    (b.x - a.x).abs().max((b.y - a.y).abs())
}

/// "n + 1 pixels, one at each major coordinate, x being major where |dx| >= |dy|":
/// the pixel numbered i of the line from A to B.
pub fn line_pixel(a: Point, b: Point, i: i64) -> Point {
    let n = line_length(a, b);
    let (dx, dy) = (b.x - a.x, b.y - a.y);
    if dx.abs() >= dy.abs() {
        Point {
            x: a.x + i * dx.signum(),
            y: minor_coordinate(n, a.y, dy, i),
        }
    } else {
        Point {
            x: minor_coordinate(n, a.x, dx, i),
            y: a.y + i * dy.signum(),
        }
    }
}

/// "let E = n x (A's minor) + i x (signed minor difference) at pixel i; v satisfies
/// -n <= 2(nv - E) < n; where n = 0 v is A's."
///
/// The left inequality is v >= (2E - n) / 2n and the right one v < (2E - n) / 2n + 1,
/// so v is that quotient rounded up. Rounding up p / q is rounding down
/// (p + q - 1) / q, here (2E + n - 1) / 2n.
fn minor_coordinate(n: i64, a: i64, difference: i64, i: i64) -> i64 {
    if n == 0 {
        return a;
    }
    let e = n * a + i * difference;
    (2 * e + n - 1).div_euclid(2 * n)
}

impl State {
    /// Draws the pixel of the visit numbered i of the command in CMD.
    pub(crate) fn draw(&mut self, i: u32, buffers: &mut Buffers) {
        match self.command().opcode() {
            opcode::BITBLT => self.draw_blit_pixel(i, buffers),
            opcode::LINE | opcode::PLINE => self.draw_line_pixel(i, buffers),
            _ => {}
        }
    }

    fn draw_blit_pixel(&self, i: u32, buffers: &mut Buffers) {
        let index = self.let_through(self.blit_pixel(register::XY1, i), buffers);
        if let (Some(index), Some(source)) = (index, self.blit_source(i, buffers)) {
            self.put(index, source, buffers);
        }
    }

    /// "Source is FORE with SOLID, else the source buffer's pixel; a source pixel
    /// outside its buffer, or equal to KEY with KEY set, draws nothing." Of STPL:
    /// "With SOLID the source is FORE everywhere and no bit is read" (document 02, R-2). With
    /// APAT it is the tile's (document 02, R-7).
    pub fn blit_source(&self, i: u32, buffers: &Buffers) -> Option<u8> {
        let command = self.command();
        if command.has(flag::SOLID) {
            return Some(self.byte(register::FORE));
        }
        if command.has(flag::APAT) {
            return self.tile_source(self.blit_pixel(register::XY1, i));
        }
        let from = self.blit_pixel(register::XY0, i);
        if command.has(flag::STPL) {
            return self.stipple_source(from, buffers);
        }
        let from = buffers.index(from)?;
        let pixel = buffers.pixels[usize::from(command.has(flag::SOURCE))][from];
        let is_key = command.has(flag::KEY) && pixel == self.byte(register::KEY);
        (!is_key).then_some(pixel)
    }

    /// "XY0 is then a bit position, bit x of row y being bit 7 - (x mod 8) of byte
    /// x div 8 in row y of the source buffer. A 1 draws FORE; a 0 draws BACK, or nothing
    /// with TRNSP." "a bit outside the buffer draws nothing" (document 02, R-2).
    fn stipple_source(&self, bit: Point, buffers: &Buffers) -> Option<u8> {
        let place = Point {
            x: bit.x.div_euclid(8),
            y: bit.y,
        };
        let from = buffers.index(place)?;
        let byte = buffers.pixels[usize::from(self.command().has(flag::SOURCE))][from];
        self.bit_source(u32::from(byte) >> (7 - bit.x.rem_euclid(8)) & 1)
    }

    /// Where the pixel of visit i lies as seen from the corner XY0 or XY1. With STPL too:
    /// "Direction, clip, mask and steps are as for other blits" (document 02, R-2).
    pub fn blit_pixel(&self, corner: usize, i: u32) -> Point {
        point(self.registers[corner]).moved(self.blit_visits()[i as usize])
    }

    /// How far the visits of the blit in CMD lie from the corner where it begins.
    pub fn blit_visits(&self) -> Rc<[Point]> {
        self.blit().kept_visits()
    }

    /// The blit in CMD.
    pub fn blit(&self) -> Blit {
        let size = self.registers[register::XY2];
        Blit {
            window: self.window(),
            corner: point(self.registers[register::XY1]),
            size: (size >> 16, size & 0xFFFF),
            direction: self.registers[register::XY3],
        }
    }

    /// What lets the pixels of the command in CMD through.
    fn window(&self) -> Window {
        let corner = |number| point(self.registers[number]);
        let clip = || (corner(register::CLPTL), corner(register::CLPBR));
        Window {
            width: self.width,
            height: self.height,
            clip: self.command().has(flag::CLIP).then(clip),
        }
    }

    /// "The pattern is to move after every pixel that a line without SOLID visits,
    /// drawn, clipped or off the buffer" (document 02, R-1).
    fn draw_line_pixel(&mut self, i: u32, buffers: &mut Buffers) {
        let (a, b) = self.line_ends();
        let index = self.let_through(line_pixel(a, b, i64::from(i)), buffers);
        if let (Some(index), Some(source)) = (index, self.line_source()) {
            self.put(index, source, buffers);
        }
        if !self.command().has(flag::SOLID) {
            self.move_pattern();
        }
    }

    /// "Source is FORE with SOLID; else the pattern bit: 1 FORE, 0 BACK, or nothing
    /// with TRNSP."
    fn line_source(&self) -> Option<u8> {
        if self.command().has(flag::SOLID) {
            return Some(self.byte(register::FORE));
        }
        self.bit_source(self.registers[register::LPAT] >> self.pattern_place & 1)
    }

    /// What a bit draws, of a line's pattern or of a stippled blit's source: "1 FORE, 0
    /// BACK, or nothing with TRNSP".
    fn bit_source(&self, bit: u32) -> Option<u8> {
        if bit == 1 {
            Some(self.byte(register::FORE))
        } else if self.command().has(flag::TRNSP) {
            None
        } else {
            Some(self.byte(register::BACK))
        }
    }

    /// "repeat + 1; at the scale, repeat 0 and place + 1; at the length, place 0."
    fn move_pattern(&mut self) {
        let control = pattern_control(self.registers[register::PCTRL]);
        self.pattern_repeat += 1;
        if self.pattern_repeat == control.scale {
            self.pattern_repeat = 0;
            self.pattern_place += 1;
        }
        if self.pattern_place == control.length {
            self.pattern_place = 0;
        }
    }

    /// "A pixel outside the destination buffer, or with CLIP set outside CLPTL to
    /// CLPBR (both corners inside), is visited and not drawn": a line's. A blit does not
    /// visit it (document 02, R-6).
    fn let_through(&self, p: Point, buffers: &Buffers) -> Option<usize> {
        if self.window().holds(p) {
            buffers.index(p)
        } else {
            None
        }
    }

    /// Combines the source with the pixel as it stands in the destination buffer.
    fn put(&self, index: usize, source: u8, buffers: &mut Buffers) {
        let command = self.command();
        let pixel = &mut buffers.pixels[usize::from(command.has(flag::DESTINATION))][index];
        *pixel = raster(
            command.raster_code(),
            self.byte(register::MASK),
            source,
            *pixel,
        );
    }

    /// One of FORE, BACK, MASK and KEY, which are "0 to 255".
    fn byte(&self, number: usize) -> u8 {
        self.registers[number] as u8
    }
}
