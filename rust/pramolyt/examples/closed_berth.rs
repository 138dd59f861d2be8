//! Two berths of a quay are closed and hatched, and one is opened again. The hatching is a tile of 16 by 8 pixels, which is
//! written into the virtual buffer once; a blit with APAT fills a berth from it. Each pixel has the tile's column and row by
//! its own place on the board, so that the hatching goes on from berth to berth. With raster code 6, exclusive or, the same
//! blit drawn again takes it away. With a file name as its argument it writes a log of its calls into that file, for
//! `pramolyt replay`. `examples/c/closed_berth.c` is the same in C.

use std::error::Error;
use std::ops::RangeInclusive;

use call_log::{Log, LoggedBoard};
use pramolyt::list::{
    ENTRY_BYTES, Entry, Flags, Opcode, RasterCode, Register, command, point, size,
};
use pramolyt::{Answer, VIRTUAL};

// Berths are side by side, with a pier between them and the quay below.
const BERTHS: usize = 4;
const BERTH_WIDTH: usize = 13;
const BERTH_HEIGHT: usize = 9;
const WIDTH: usize = BERTHS * (BERTH_WIDTH + 1) + 1;
const HEIGHT: usize = BERTH_HEIGHT + 1;

const ENTRIES: usize = 64;
const TILE_WIDTH: usize = 16;
const TILE_HEIGHT: usize = 8;

// Colours: bit 0 is what stands there, bit 1 the hatching.
const BUILT: u32 = 1;
const HATCHED: u8 = 2;

/// A display list while it is built.
#[derive(Default)]
struct DisplayList {
    bytes: Vec<u8>,
}

impl DisplayList {
    fn entry(&mut self, register: Register, word: u32) {
        self.bytes.extend(Entry::new(register, word).to_bytes());
    }
}

fn left_of(berth: usize) -> i16 {
    (1 + berth * (BERTH_WIDTH + 1)) as i16
}

/// The piers, the quay, and a ship at each berth but the third.
fn quay() -> DisplayList {
    let (right, bottom) = (WIDTH as i16 - 1, HEIGHT as i16 - 1);
    let mut list = DisplayList::default();
    list.entry(Register::Fore, BUILT);
    list.entry(
        Register::Cmd,
        command(Opcode::Line, RasterCode::Copy, Flags::SOLID),
    );
    list.entry(Register::Xy0, point(0, bottom));
    list.entry(Register::Xy1, point(right, bottom));
    for berth in 0..=BERTHS {
        list.entry(Register::Xy0, point(left_of(berth) - 1, 0));
        list.entry(Register::Xy1, point(left_of(berth) - 1, bottom - 1));
    }
    list.entry(
        Register::Cmd,
        command(Opcode::Bitblt, RasterCode::Copy, Flags::SOLID),
    );
    list.entry(Register::Xy2, size(4, 7));
    for berth in (0..BERTHS).filter(|&berth| berth != 2) {
        list.entry(Register::Xy1, point(left_of(berth) + 5, 2));
    }
    list
}

/// Hatches berths, or takes their hatching away. XY0 is the upper left corner of the tile.
fn hatching(berths: RangeInclusive<usize>) -> DisplayList {
    let mut list = DisplayList::default();
    let flags = Flags::APAT | Flags::SOURCE_VIRTUAL;
    list.entry(
        Register::Cmd,
        command(Opcode::Bitblt, RasterCode::Xor, flags),
    );
    list.entry(Register::Xy0, point(0, 0));
    list.entry(Register::Xy2, size(BERTH_WIDTH, BERTH_HEIGHT));
    for berth in berths {
        list.entry(Register::Xy1, point(left_of(berth), 0));
    }
    list
}

/// A board and its three memories.
struct Panel {
    board: LoggedBoard,
    memory: [u8; ENTRY_BYTES * ENTRIES],
    display: [u8; WIDTH * HEIGHT],
    virt: [u8; WIDTH * HEIGHT],
}

impl Panel {
    fn new(log: Log) -> Result<Panel, Answer> {
        let (made, board) = LoggedBoard::make(log, WIDTH, HEIGHT, ENTRIES);
        made.ok()?;
        Ok(Panel {
            board,
            memory: [0; ENTRY_BYTES * ENTRIES],
            display: [0; WIDTH * HEIGHT],
            virt: [0; WIDTH * HEIGHT],
        })
    }

    /// Writes the tile to the upper left of the virtual buffer, row by row: slanting lines, four pixels apart.
    fn write_tile(&mut self) -> Result<(), Answer> {
        for y in 0..TILE_HEIGHT {
            let pixel = |x| if (x + y) % 4 == 0 { HATCHED } else { 0 };
            let row: [u8; TILE_WIDTH] = std::array::from_fn(pixel);
            self.board
                .window_write(VIRTUAL, y * WIDTH, &row, &mut self.virt)
                .ok()?;
        }
        Ok(())
    }

    fn run(&mut self, budget: u64) -> Result<u64, Answer> {
        self.board
            .run(budget, &self.memory, &mut self.display, &mut self.virt)
            .ok()
    }

    /// Stores, posts and runs a list, first for 50 steps. A fill that they cut goes on from the tile that the record holds.
    fn draw(&mut self, name: &str, list: &DisplayList) -> Result<(), Answer> {
        let count = list.bytes.len() / ENTRY_BYTES;
        self.board.store(&mut self.memory, 0, &list.bytes).ok()?;
        self.board.post(&self.memory, 0, count).ok()?;
        let first = self.run(50)?;
        let held = if self.board.board().holds_tile() {
            ", a tile is held"
        } else {
            ""
        };
        let rest = self.run(10_000)?;
        println!("{name}: {count} entries, {first} steps{held}, {rest} steps");
        Ok(())
    }

    fn print(&self) {
        for row in self.display.chunks(WIDTH) {
            let row: String = row
                .iter()
                .map(|&pixel| [' ', '#', '/', '%'][usize::from(pixel)])
                .collect();
            println!("|{row}|");
        }
    }
}

fn main() -> Result<(), Box<dyn Error>> {
    let mut panel = Panel::new(Log::to_argument(1)?)?;
    panel.write_tile()?;
    panel.draw("the quay", &quay())?;
    panel.print();
    panel.draw("berths 2 and 3 are closed", &hatching(1..=2))?;
    panel.print();
    panel.draw("berth 3 is open again", &hatching(2..=2))?;
    panel.print();
    panel.board.finish()?;
    Ok(())
}
