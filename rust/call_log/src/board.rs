//! A board that writes the log of its calls.

use std::fs::File;
use std::io::{self, Write};
use std::{env, mem};

use pramolyt::list::ENTRY_BYTES;
use pramolyt::{Answer, Board, Feed};

use crate::call::{Call, Outcome};

/// Where the log goes, if anywhere.
#[derive(Default)]
pub struct Log {
    output: Option<Box<dyn Write>>,
    error: Option<io::Error>,
}

impl Log {
    /// No log is written.
    pub fn none() -> Log {
        Log::default()
    }

    /// The log is written to `output`.
    pub fn to(output: impl Write + 'static) -> Log {
        Log {
            output: Some(Box::new(output)),
            error: None,
        }
    }

    /// The log is written to the file that the program's argument at this place names, if there is one.
    ///
    /// # Errors
    ///
    /// The file cannot be written.
    pub fn to_argument(place: usize) -> io::Result<Log> {
        match env::args_os().nth(place) {
            Some(name) => Ok(Log::to(File::create(name)?)),
            None => Ok(Log::none()),
        }
    }

    /// Writes a call and what it handed back, at once, so that the log of a program that stops has all its calls. After an
    /// error no more is written.
    fn write(&mut self, call: &Call, outcome: Option<&Outcome>) {
        let (Some(output), None) = (&mut self.output, &self.error) else {
            return;
        };
        let line = match outcome {
            Some(outcome) => format!("{call} = {outcome}\n"),
            None => format!("{call}\n"),
        };
        let written = output.write_all(line.as_bytes());
        self.error = written.and_then(|()| output.flush()).err();
    }

    fn finish(self) -> io::Result<()> {
        self.error.map_or(Ok(()), Err)
    }
}

/// A board that writes each call and its answer to a log. Its calls are those of [`Board`].
pub struct LoggedBoard {
    board: Board,
    log: Log,
}

impl LoggedBoard {
    /// [`Board::make`], and the log.
    pub fn make(log: Log, width: usize, height: usize, entries: usize) -> (Answer, LoggedBoard) {
        let (answer, board) = Board::make(width, height, entries);
        let mut board = LoggedBoard { board, log };
        let call = Call::Make {
            width,
            height,
            entries,
        };
        (board.answered(&call, answer), board)
    }

    /// [`Board::make`] in place of this board; the log goes on.
    pub fn make_anew(&mut self, width: usize, height: usize, entries: usize) -> Answer {
        let log = mem::take(&mut self.log);
        let (answer, board) = LoggedBoard::make(log, width, height, entries);
        *self = board;
        answer
    }

    /// The board, to be asked and not to be changed.
    pub fn board(&self) -> &Board {
        &self.board
    }

    /// [`Board::post`].
    pub fn post(&mut self, list: &[u8], start: usize, count: usize) -> Answer {
        let answer = self.board.post(list, start, count);
        self.answered(&Call::Post { start, count }, answer)
    }

    /// [`Board::store`].
    pub fn store(&mut self, list: &mut [u8], first: usize, bytes: &[u8]) -> Answer {
        let answer = self.board.store(list, first, bytes);
        let bytes = bytes.into();
        self.answered(&Call::Store { first, bytes }, answer)
    }

    /// The caller writes bytes over list memory from entry `first` on, which is no call of the library. Bytes past its end
    /// are dropped.
    pub fn overwrite(&mut self, list: &mut [u8], first: usize, bytes: &[u8]) {
        let from = first.saturating_mul(ENTRY_BYTES).min(list.len());
        let count = bytes.len().min(list.len() - from);
        list[from..from + count].copy_from_slice(&bytes[..count]);
        let bytes = bytes.into();
        self.log.write(&Call::Overwrite { first, bytes }, None);
    }

    /// [`Board::feed`].
    pub fn feed(&mut self, feed: &mut Feed, list: &mut [u8], piece: &[u8]) -> Answer {
        let call = Call::Feed {
            feed: feed.clone(),
            piece: piece.into(),
        };
        let answer = self.board.feed(feed, list, piece);
        self.log.write(&call, Some(&Outcome::of_feed(answer, feed)));
        answer
    }

    /// [`Board::window_write`].
    pub fn window_write(
        &mut self,
        number: usize,
        offset: usize,
        bytes: &[u8],
        buffer: &mut [u8],
    ) -> Answer {
        let answer = self.board.window_write(number, offset, bytes, buffer);
        let call = Call::Write {
            number,
            offset,
            bytes: bytes.into(),
        };
        self.answered(&call, answer)
    }

    /// [`Board::export`].
    ///
    /// # Errors
    ///
    /// As there.
    pub fn export(
        &mut self,
        number: usize,
        buffer: &[u8],
        output: &mut [u8],
    ) -> Result<usize, Answer> {
        let room = output.len();
        let exported = self.board.export(number, buffer, output);
        let picture = exported.map(|written| &output[..written]);
        self.log.write(
            &Call::Export { number, room },
            Some(&Outcome::of_export(picture)),
        );
        exported
    }

    /// [`Board::import`].
    pub fn import(&mut self, number: usize, picture: &[u8], buffer: &mut [u8]) -> Answer {
        let answer = self.board.import(number, picture, buffer);
        let picture = picture.into();
        self.answered(&Call::Import { number, picture }, answer)
    }

    /// [`Board::run`].
    pub fn run(&mut self, budget: u64, list: &[u8], display: &mut [u8], virt: &mut [u8]) -> Answer {
        let answer = self.board.run(budget, list, display, virt);
        self.log
            .write(&Call::Run { budget }, Some(&Outcome::of_run(answer)));
        answer
    }

    /// Ends the log.
    ///
    /// # Errors
    ///
    /// The log could not be written.
    pub fn finish(self) -> io::Result<()> {
        self.log.finish()
    }

    fn answered(&mut self, call: &Call, answer: Answer) -> Answer {
        self.log.write(call, Some(&Outcome::of(answer)));
        answer
    }
}
