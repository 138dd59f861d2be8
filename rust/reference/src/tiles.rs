//! "Hatched berths": a fill with a tile, APAT (document 02, R-7).

use crate::drawing::{point, Buffers, Point};
use crate::entries::{flag, register};
use crate::state::State;

/// "a tile of eight rows of sixteen pixels".
pub type Tile = [[u8; COLUMNS]; ROWS];
pub const ROWS: usize = 8;
pub const COLUMNS: usize = 16;

impl State {
    /// Whether a fill with a tile is under way.
    pub fn is_tiled(&self) -> bool {
        self.under_way && self.command().has(flag::APAT)
    }

    /// Whether the tile "whose upper left corner is XY0" lies "wholly inside its source
    /// buffer".
    pub fn tile_is_whole(&self) -> bool {
        let Point { x, y } = point(self.registers[register::XY0]);
        let fits_across = 0 <= x && x + 16 <= self.width.into();
        let fits_down = 0 <= y && y + 8 <= self.height.into();
        fits_across && fits_down
    }

    /// "When triggered, the engine takes a tile". A fill that shows no pixel has ended at
    /// its trigger and takes none.
    pub(crate) fn take_tile(&mut self, buffers: &Buffers) {
        if self.is_tiled() && self.tile_is_whole() {
            self.tile = Some(self.tile_in(buffers));
        }
    }

    /// The tile as it stands in the source buffer; a whole one has no pixel outside.
    fn tile_in(&self, buffers: &Buffers) -> Tile {
        let corner = point(self.registers[register::XY0]);
        let source = &buffers.pixels[usize::from(self.command().has(flag::SOURCE))];
        let pixel = |row: usize, column: usize| {
            let (x, y) = (column as i64, row as i64);
            let index = buffers.index(corner.moved(Point { x, y }));
            index.map_or(0, |index| source[index])
        };
        std::array::from_fn(|row| std::array::from_fn(|column| pixel(row, column)))
    }

    /// "Destination (x, y) then uses column x mod 16, row y mod 8 of the tile." "If the
    /// tile isn't wholly inside its source buffer, nothing is drawn".
    pub(crate) fn tile_source(&self, p: Point) -> Option<u8> {
        let column = p.x.rem_euclid(16) as usize;
        let row = p.y.rem_euclid(8) as usize;
        self.tile.map(|tile| tile[row][column])
    }
}
