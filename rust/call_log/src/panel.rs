//! A board with its memories.

use std::io;

use pramolyt::list::ENTRY_BYTES;
use pramolyt::{Answer, VIRTUAL, picture_max};

use crate::board::{Log, LoggedBoard};
use crate::call::{Call, Outcome};

/// A board and the three memories that it is lent, zeros at first.
pub struct Panel {
    board: LoggedBoard,
    list: Vec<u8>,
    /// Display and virtual.
    buffers: [Vec<u8>; 2],
}

impl Panel {
    /// A fresh board, whether make was done or refused, with memories of its sizes.
    pub fn make(log: Log, width: usize, height: usize, entries: usize) -> (Answer, Panel) {
        let (answer, board) = LoggedBoard::make(log, width, height, entries);
        let mut panel = Panel {
            board,
            list: Vec::new(),
            buffers: [const { Vec::new() }; 2],
        };
        panel.fit();
        (answer, panel)
    }

    /// Memories of the board's sizes: those that have another size are zeros then.
    fn fit(&mut self) {
        let board = self.board.board();
        let pixels = board.width() * board.height();
        let entries = ENTRY_BYTES * board.entries();
        let [display, virt] = &mut self.buffers;
        for (memory, size) in [(&mut self.list, entries), (display, pixels), (virt, pixels)] {
            if memory.len() != size {
                *memory = vec![0; size];
            }
        }
    }

    /// The board.
    pub fn board(&self) -> &pramolyt::Board {
        self.board.board()
    }

    /// List memory.
    pub fn list(&self) -> &[u8] {
        &self.list
    }

    /// The buffer of this number; the display where there is none.
    pub fn buffer(&self, number: usize) -> &[u8] {
        &self.buffers[place_of(number)]
    }

    /// Makes the call on this board, and gives what it handed back. Overwrite, which is no call of the library, hands back
    /// nothing.
    pub fn play(&mut self, call: &Call) -> Option<Outcome> {
        let answer = match call {
            &Call::Make {
                width,
                height,
                entries,
            } => {
                let answer = self.board.make_anew(width, height, entries);
                self.fit();
                answer
            }
            &Call::Post { start, count } => self.post(start, count),
            Call::Store { first, bytes } => self.store(*first, bytes),
            Call::Overwrite { first, bytes } => {
                self.board.overwrite(&mut self.list, *first, bytes);
                return None;
            }
            Call::Feed { feed, piece } => {
                let mut feed = feed.clone();
                let answer = self.board.feed(&mut feed, &mut self.list, piece);
                return Some(Outcome::of_feed(answer, &feed));
            }
            Call::Write {
                number,
                offset,
                bytes,
            } => self.write(*number, *offset, bytes),
            &Call::Export { number, room } => {
                let exported = self.export_into(number, room);
                return Some(Outcome::of_export(
                    exported.as_deref().map_err(|&refused| refused),
                ));
            }
            Call::Import { number, picture } => self.import(*number, picture),
            &Call::Run { budget } => return Some(Outcome::of_run(self.run(budget))),
        };
        Some(Outcome::of(answer))
    }

    /// Stores entries into list memory.
    pub fn store(&mut self, first: usize, bytes: &[u8]) -> Answer {
        self.board.store(&mut self.list, first, bytes)
    }

    /// Posts a list.
    pub fn post(&mut self, start: usize, count: usize) -> Answer {
        self.board.post(&self.list, start, count)
    }

    /// Runs the posted lists.
    pub fn run(&mut self, budget: u64) -> Answer {
        let [display, virt] = &mut self.buffers;
        self.board.run(budget, &self.list, display, virt)
    }

    /// Writes bytes into a buffer.
    pub fn write(&mut self, number: usize, offset: usize, bytes: &[u8]) -> Answer {
        let buffer = &mut self.buffers[place_of(number)];
        self.board.window_write(number, offset, bytes, buffer)
    }

    /// Reads a picture into a buffer.
    pub fn import(&mut self, number: usize, picture: &[u8]) -> Answer {
        let buffer = &mut self.buffers[place_of(number)];
        self.board.import(number, picture, buffer)
    }

    /// A buffer as a picture.
    ///
    /// # Errors
    ///
    /// The answer of a refusal.
    pub fn export(&mut self, number: usize) -> Result<Vec<u8>, Answer> {
        self.export_into(number, usize::MAX)
    }

    /// A buffer as a picture, into an output of so many bytes. The largest picture is room enough.
    fn export_into(&mut self, number: usize, room: usize) -> Result<Vec<u8>, Answer> {
        let board = self.board.board();
        let mut output = vec![0; room.min(picture_max(board.width(), board.height()))];
        let buffer = &self.buffers[place_of(number)];
        let written = self.board.export(number, buffer, &mut output)?;
        output.truncate(written);
        Ok(output)
    }

    /// Ends the log.
    ///
    /// # Errors
    ///
    /// The log could not be written.
    pub fn finish(self) -> io::Result<()> {
        self.board.finish()
    }
}

/// The place of a buffer among both: a call that names a third is lent the display, and refused.
fn place_of(number: usize) -> usize {
    usize::from(number == VIRTUAL)
}
