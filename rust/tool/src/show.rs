//! `show`: runs a list and shows the board.

use pramolyt::list::ENTRY_BYTES;

use crate::args::Given;
use crate::failure::{Failure, complain};
use crate::files::{print, write_file};
use crate::paint::Painter;
use crate::progress::Progress;
use crate::setup::{Setup, buffer};

/// The steps of a run where no budget is given: so many take part of a second, after which progress is told.
const BUDGET: u64 = 50_000_000;

/// What was asked for, besides the board.
struct Wanted {
    budget: u64,
    runs: u64,
    /// The buffer that is shown.
    number: usize,
    painter: Painter,
}

pub fn run(given: &Given) -> Result<u8, Failure> {
    let wanted = Wanted {
        budget: given.number("budget", 1, u64::MAX)?.unwrap_or(BUDGET),
        runs: given.number("runs", 1, u64::MAX)?.unwrap_or(u64::MAX),
        number: buffer(given)?,
        painter: Painter::new(given)?,
    };
    let mut setup = Setup::open(given)?;
    let shown = show(given, &wanted, &mut setup);
    setup.finish()?;
    shown.map(|()| 0)
}

fn show(given: &Given, wanted: &Wanted, setup: &mut Setup) -> Result<(), Failure> {
    setup.store()?;
    setup.post()?;
    let steps = run_all(setup, wanted.budget, wanted.runs)?;
    let summary = setup.summary(steps);
    if given.has("output") {
        let picture = setup.export(wanted.number)?;
        write_file(given.output(), &picture, true)?;
        let alone = given.output() == "-";
        return print(if alone { "" } else { &summary });
    }
    setup.log_picture(wanted.number)?;
    let (text, note) = setup.paint(&wanted.painter, wanted.number);
    print(&(summary + &text))?;
    if let Some(note) = note {
        complain(&note);
    }
    Ok(())
}

/// Runs of the budget's steps, so many at most, until nothing is left. The steps of all.
fn run_all(setup: &mut Setup, budget: u64, runs: u64) -> Result<u64, Failure> {
    let mut progress = Progress::new("show");
    let (mut steps, mut done) = (0, 0);
    while done < runs && !setup.panel.board().is_idle() {
        steps += setup.run(budget)?;
        done += 1;
        progress.tick(|| {
            let next = setup.panel.board().next_entry();
            let count = setup.list.len() / ENTRY_BYTES;
            format!("entry {next} of {count}, {steps} steps")
        });
    }
    Ok(steps)
}
