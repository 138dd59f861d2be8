//! `replay`: the calls of a log, made again, and their answers held against those in the log.

use call_log::{Call, Detail, Line, Log, Outcome, Panel, Reader};

use crate::args::Given;
use crate::failure::{Failure, complain};
use crate::files::{Input, print, write_file};
use crate::posting::illegal;
use crate::progress::Progress;
use crate::setup::buffer;

/// A log while it is played.
struct Replay {
    name: String,
    panel: Option<Panel>,
    verbose: bool,
    keep_going: bool,
    calls: u64,
    answers: u64,
    differences: u64,
}

pub fn run(given: &Given) -> Result<u8, Failure> {
    let number = buffer(given)?;
    let input = Input::open(&given.file)?;
    let mut replay = Replay {
        name: input.name.clone(),
        panel: None,
        verbose: given.has("verbose"),
        keep_going: given.has("keep-going"),
        calls: 0,
        answers: 0,
        differences: 0,
    };
    let mut reader = Reader::new(input.buffered());
    let mut progress = if replay.verbose {
        Progress::beside_output("replay")
    } else {
        Progress::new("replay")
    };
    loop {
        let next = reader.next_call();
        let next = next.map_err(|trouble| Failure::reading_text(&replay.name, trouble))?;
        match next {
            Some(line) => replay.play(&line)?,
            None => break,
        }
        progress.tick(|| format!("{} calls", replay.calls));
    }
    drop(progress);
    replay.finish(given, number)
}

impl Replay {
    /// Makes a call and looks at its answer.
    fn play(&mut self, line: &Line) -> Result<(), Failure> {
        self.calls += 1;
        let outcome = self.outcome(line)?;
        if self.verbose {
            let head = line.call.head();
            match &outcome {
                Some(outcome) => print(&format!("{}: {head} = {}\n", line.number, short(outcome)))?,
                None => print(&format!("{}: {head}\n", line.number))?,
            }
        }
        let (Some(logged), Some(outcome)) = (&line.outcome, outcome) else {
            return Ok(());
        };
        self.answers += 1;
        if *logged == outcome {
            return Ok(());
        }
        let message = self.difference(line, logged, &outcome);
        self.differences += 1;
        if self.keep_going {
            complain(&message);
            return Ok(());
        }
        Err(Failure::Refused(message))
    }

    /// What the call hands back here. The first one makes the board.
    fn outcome(&mut self, line: &Line) -> Result<Option<Outcome>, Failure> {
        match (&mut self.panel, &line.call) {
            (Some(panel), call) => Ok(panel.play(call)),
            (
                None,
                &Call::Make {
                    width,
                    height,
                    entries,
                },
            ) => {
                let (answer, panel) = Panel::make(Log::none(), width, height, entries);
                self.panel = Some(panel);
                Ok(Some(Outcome::of(answer)))
            }
            (None, call) => Err(Failure::Refused(format!(
                "{}:{}:1: {}: no board is made before it",
                self.name,
                line.number,
                call.head()
            ))),
        }
    }

    /// How the two outcomes differ, in a line.
    fn difference(&self, line: &Line, logged: &Outcome, outcome: &Outcome) -> String {
        let mut text = format!("{}:{}: {}: ", self.name, line.number, line.call.head());
        text += &match (&logged.detail, &outcome.detail) {
            (Detail::Picture(logged), Detail::Picture(drawn)) => self.pixels(logged, drawn),
            _ => format!(
                "the log has {}, the library {}",
                short(logged),
                short(outcome)
            ),
        };
        if let (Some(panel), &Detail::Place(place)) = (&self.panel, &outcome.detail) {
            text += &format!(": {}", illegal(panel.list(), place));
        }
        text
    }

    /// Where two pictures differ first.
    fn pixels(&self, logged: &[u8], drawn: &[u8]) -> String {
        let width = self.panel.as_ref().map_or(1, |panel| panel.board().width());
        let pixels = self.panel.as_ref().map_or(0, |panel| panel.buffer(0).len());
        let header = drawn.len().saturating_sub(pixels);
        let at = logged
            .iter()
            .zip(drawn)
            .position(|(one, other)| one != other);
        match at {
            Some(at) if at >= header && logged.len() == drawn.len() => {
                let (x, y) = ((at - header) % width, (at - header) / width);
                format!(
                    "the pictures differ first at ({x}, {y}): {:02X} in the log, {:02X} from the library",
                    logged[at], drawn[at]
                )
            }
            _ => "the pictures differ in their headers or lengths".into(),
        }
    }

    /// Says how it went, and writes the picture that was asked for.
    fn finish(mut self, given: &Given, number: usize) -> Result<u8, Failure> {
        if given.has("output") {
            let Some(panel) = &mut self.panel else {
                let message = format!(
                    "{}: the log has no calls, so there is no picture",
                    self.name
                );
                return Err(Failure::Refused(message));
            };
            let exported = panel.export(number);
            let picture = exported.map_err(|answer| Failure::Refused(answer.to_string()))?;
            write_file(given.output(), &picture, true)?;
        }
        if given.output() != "-" || !given.has("output") {
            let good = self.answers - self.differences;
            print(&format!(
                "{}: {} calls, {good} of {} answers as in the log\n",
                self.name, self.calls, self.answers
            ))?;
        }
        Ok(u8::from(self.differences > 0))
    }
}

/// An outcome in a few words.
fn short(outcome: &Outcome) -> String {
    match &outcome.detail {
        Detail::Picture(picture) => {
            format!("{} picture of {} bytes", outcome.number, picture.len())
        }
        _ => outcome.to_string(),
    }
}
