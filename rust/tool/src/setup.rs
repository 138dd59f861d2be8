//! A board of the size that was asked for, with the pictures and the list of the command line: what `show` and `trace` begin
//! with.

use std::fs::File;
use std::io;

use call_log::{Log, Panel};
use pramolyt::list::MAX_ENTRIES;
use pramolyt::{Answer, DISPLAY, VIRTUAL};

use crate::args::Given;
use crate::failure::Failure;
use crate::files::Input;
use crate::paint::{Painter, Picture};
use crate::posting::{self, Refusal};

pub struct Setup<'a> {
    given: &'a Given,
    pub panel: Panel,
    /// The name of the list file in messages, and its bytes.
    name: String,
    pub list: Vec<u8>,
}

impl<'a> Setup<'a> {
    /// Reads all files, makes the board and imports its pictures; the list is not stored yet. The log is begun when everything
    /// has been read.
    pub fn open(given: &'a Given) -> Result<Setup<'a>, Failure> {
        given.size()?;
        let input = Input::open(&given.file)?;
        let name = input.name.clone();
        let list = input.read_all()?;
        let mut pictures = Vec::new();
        for (option, number) in [("from", DISPLAY), ("from-virtual", VIRTUAL)] {
            if let Some(name) = given.value(option) {
                let input = Input::open(name)?;
                pictures.push((number, input.name.clone(), input.read_all()?));
            }
        }
        let mut panel = board(given)?;
        for (number, name, picture) in pictures {
            import(&mut panel, number, &name, &picture)?;
        }
        Ok(Setup {
            given,
            panel,
            name,
            list,
        })
    }

    /// Stores the list.
    pub fn store(&mut self) -> Result<(), Failure> {
        let stored = posting::store(&mut self.panel, &self.list);
        stored.map_err(|refusal| self.refused(&refusal))
    }

    /// Posts the list.
    pub fn post(&mut self) -> Result<(), Failure> {
        let posted = posting::post(&mut self.panel, &self.list);
        posted.map_err(|refusal| self.refused(&refusal))
    }

    /// Asks whether the list would be accepted, and posts nothing.
    pub fn judge(&self) -> Result<(), Failure> {
        let judged = posting::judge(&self.panel, &self.list);
        judged.map_err(|refusal| self.refused(&refusal))
    }

    fn refused(&self, refusal: &Refusal) -> Failure {
        Failure::Refused(format!("{}: {}", self.name, refusal.text()))
    }

    /// Steps of the posted lists.
    pub fn run(&mut self, budget: u64) -> Result<u64, Failure> {
        let ran = self.panel.run(budget).ok();
        ran.map_err(|answer| self.failed(answer))
    }

    /// A buffer as a PGM.
    pub fn export(&mut self, number: usize) -> Result<Vec<u8>, Failure> {
        let exported = self.panel.export(number);
        exported.map_err(|answer| self.failed(answer))
    }

    /// Ends the log with the picture that the calls before it left.
    pub fn log_picture(&mut self, number: usize) -> Result<(), Failure> {
        if self.given.has("log") {
            self.export(number)?;
        }
        Ok(())
    }

    /// A call that is never refused was.
    pub fn failed(&self, answer: Answer) -> Failure {
        Failure::Refused(format!("{}: {answer}", self.name))
    }

    /// Answer, steps and state in a line, as the program `draw` has it.
    pub fn summary(&self, steps: u64) -> String {
        let idle = self.panel.board().is_idle();
        let state = if idle { "idle" } else { "paused" };
        format!("answer 0 steps {steps} {state}\n")
    }

    /// A buffer as it is shown.
    pub fn paint(&self, painter: &Painter, number: usize) -> (String, Option<String>) {
        painter.paint(&Picture {
            pixels: self.panel.buffer(number),
            width: self.panel.board().width(),
        })
    }

    /// Ends the log.
    pub fn finish(self) -> Result<(), Failure> {
        let name = self.given.value("log").unwrap_or_default();
        let finished = self.panel.finish();
        finished.map_err(|error| Failure::writing(&name.to_string_lossy(), &error))
    }
}

/// The number of the buffer that was asked for, the display if none was.
pub fn buffer(given: &Given) -> Result<usize, Failure> {
    let choice = given.choice("buffer", &["display", "virtual"])?;
    Ok([DISPLAY, VIRTUAL][choice.unwrap_or(0)])
}

/// The board of the size that was asked for, and its log.
pub fn board(given: &Given) -> Result<Panel, Failure> {
    let (width, height) = given.size()?;
    let log = match given.value("log") {
        None => Log::none(),
        Some(name) if name == "-" => Log::to(io::stdout()),
        Some(name) => match File::create(name) {
            Ok(file) => Log::to(file),
            Err(error) => return Err(Failure::writing(&name.to_string_lossy(), &error)),
        },
    };
    let (made, panel) = Panel::make(log, width, height, MAX_ENTRIES);
    made.ok().map_err(|_| given.wrong_size())?;
    Ok(panel)
}

/// Reads a picture into a buffer.
pub fn import(panel: &mut Panel, number: usize, name: &str, picture: &[u8]) -> Result<(), Failure> {
    let answer = panel.import(number, picture);
    let (width, height) = (panel.board().width(), panel.board().height());
    answer.ok().map(|_| ()).map_err(|answer| {
        let number = answer.number();
        Failure::Refused(format!(
            "{name}: answer {number}: not one binary PGM of {width} by {height} with greatest grey 255, or bytes after it"
        ))
    })
}
