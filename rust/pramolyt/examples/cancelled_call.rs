//! A ship's call on a berth board, written in a font of one bit a pixel, and the call cancelled: a bar struck through its
//! lines.
//!
//! It shows all that there is to using the library: make a board, own its three memories, write a font into the virtual
//! buffer, store a display list into list memory, post it, and run it. With a file name as its argument it also writes the
//! cancelled call into that file, as a picture in binary PGM; with a second one, a log of its calls for `pramolyt replay`. Without
//! a log, `Board` takes the place of `LoggedBoard`. `examples/c/cancelled_call.c` is the same in C.

use std::error::Error;
use std::ffi::OsStr;
use std::{env, fs};

use call_log::{Log, LoggedBoard};
use pramolyt::list::{
    ENTRY_BYTES, Entry, Flags, Opcode, RasterCode, Register, command, point, size,
};
use pramolyt::{Answer, DISPLAY, VIRTUAL, picture_max};

const WIDTH: usize = 75;
const HEIGHT: usize = 18;
const ENTRIES: usize = 64;

// The font, a character a pixel, its letters in bands of 13.
const CELL_WIDTH: usize = 6;
const CELL_HEIGHT: usize = 8;
const BAND_WIDTH: usize = 13 * CELL_WIDTH;
const LETTERS: &str = "ABCDEFGHIJKLMNOPQRSTUVWXYZ0123456789-:.";
const FONT: &str = include!("../../../examples/font.inc");
const _: () = assert!(FONT.len() == 3 * BAND_WIDTH * CELL_HEIGHT, "three bands");

/// The lines of the call, and the upper edge of each on the board.
const LINES: [(&str, i16); 2] = [("FAIRWIND", 1), ("WALL 3 05:10", 10)];

/// A display list while it is built.
#[derive(Default)]
struct DisplayList {
    bytes: Vec<u8>,
}

impl DisplayList {
    fn entry(&mut self, register: Register, word: u32) {
        self.bytes.extend(Entry::new(register, word).to_bytes());
    }

    /// A line of text, a blit a letter. Writing XY1, the cell's corner on the board, draws it.
    fn text_line(&mut self, text: &str, mut x: i16, y: i16) {
        for letter in text.chars() {
            self.entry(Register::Xy0, glyph(letter));
            self.entry(Register::Xy1, point(x, y));
            x += CELL_WIDTH as i16;
        }
    }
}

/// The bit position of a letter's cell in the virtual buffer. A letter that the font lacks, as the space, has the blank cell
/// after the last.
fn glyph(letter: char) -> u32 {
    let k = LETTERS.find(letter).unwrap_or(LETTERS.len());
    point((CELL_WIDTH * k) as i16, 0)
}

/// The lines of the call, in colour 1 on colour 0. With STPL a blit draws from bits, here those of the virtual buffer: a 1
/// draws FORE and a 0 BACK.
fn call() -> DisplayList {
    let mut list = DisplayList::default();
    let flags = Flags::STPL | Flags::SOURCE_VIRTUAL;
    let text = command(Opcode::Bitblt, RasterCode::Copy, flags);
    list.entry(Register::Fore, 1);
    list.entry(Register::Back, 0);
    list.entry(Register::Cmd, text);
    list.entry(Register::Xy2, size(CELL_WIDTH, CELL_HEIGHT));
    for (text, top) in LINES {
        list.text_line(text, 2, top);
    }
    list
}

/// A bar through each line. Exclusive or with 2 inverts bit 1 of its pixels: colour 0 becomes 2, and the text, 1, becomes 3.
fn bar() -> DisplayList {
    let mut list = DisplayList::default();
    let bar = command(Opcode::Line, RasterCode::Xor, Flags::SOLID);
    list.entry(Register::Fore, 2);
    list.entry(Register::Cmd, bar);
    for (_, top) in LINES {
        list.entry(Register::Xy0, point(0, top + 3));
        list.entry(Register::Xy1, point(WIDTH as i16 - 1, top + 3));
    }
    list
}

/// A board and its three memories.
struct Panel {
    board: LoggedBoard,
    memory: [u8; ENTRY_BYTES * ENTRIES],
    display: [u8; WIDTH * HEIGHT],
    virt: [u8; WIDTH * HEIGHT],
}

impl Panel {
    fn new(log: Log) -> Result<Panel, Answer> {
        let (made, board) = LoggedBoard::make(log, WIDTH, HEIGHT, ENTRIES);
        made.ok()?;
        Ok(Panel {
            board,
            memory: [0; ENTRY_BYTES * ENTRIES],
            display: [0; WIDTH * HEIGHT],
            virt: [0; WIDTH * HEIGHT],
        })
    }

    /// Writes the font into the virtual buffer, its bands side by side, eight pixels a byte, the leftmost in the most
    /// significant bit.
    fn write_font(&mut self) -> Result<(), Answer> {
        let mut bits = [0; WIDTH * CELL_HEIGHT];
        for (k, _) in FONT.match_indices('#') {
            let row = k / BAND_WIDTH;
            let x = row / CELL_HEIGHT * BAND_WIDTH + k % BAND_WIDTH;
            bits[row % CELL_HEIGHT * WIDTH + x / 8] |= 0x80 >> (x % 8);
        }
        self.board
            .window_write(VIRTUAL, 0, &bits, &mut self.virt)
            .ok()?;
        Ok(())
    }

    /// Stores, posts and runs a list.
    fn draw(&mut self, name: &str, list: &DisplayList) -> Result<(), Answer> {
        let count = list.bytes.len() / ENTRY_BYTES;
        self.board.store(&mut self.memory, 0, &list.bytes).ok()?;
        self.board.post(&self.memory, 0, count).ok()?;
        let steps = self
            .board
            .run(10_000, &self.memory, &mut self.display, &mut self.virt)
            .ok()?;
        println!("{name}: {count} entries, {steps} steps");
        Ok(())
    }

    fn print(&self) {
        for row in self.display.chunks(WIDTH) {
            let row: String = row
                .iter()
                .map(|&pixel| [' ', '#', '=', '%'][usize::from(pixel)])
                .collect();
            println!("|{row}|");
        }
    }

    /// Writes the display as a picture into a file.
    fn write_picture(&mut self, name: &OsStr) -> Result<(), Box<dyn Error>> {
        let mut picture = [0; picture_max(WIDTH, HEIGHT)];
        let written = self.board.export(DISPLAY, &self.display, &mut picture)?;
        fs::write(name, &picture[..written])?;
        Ok(())
    }
}

fn main() -> Result<(), Box<dyn Error>> {
    let mut panel = Panel::new(Log::to_argument(2)?)?;
    panel.write_font()?;
    panel.draw("the call", &call())?;
    panel.print();
    let before = panel.display;
    panel.draw("the bar", &bar())?;
    panel.print();
    if let Some(name) = env::args_os().nth(1) {
        panel.write_picture(&name)?;
    }
    panel.draw("the bar again", &bar())?;
    assert!(panel.display == before, "the call is not as before");
    println!("the call stands as before");
    panel.board.finish()?;
    Ok(())
}
