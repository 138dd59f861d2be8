//! `trace`: what each entry of a list does.

use std::fmt;

use pramolyt::list::ENTRY_BYTES;
use pramolyt::{DISPLAY, VIRTUAL};

use crate::args::Given;
use crate::dis::{write_digits, write_entry};
use crate::failure::{Failure, complain};
use crate::files::Output;
use crate::paint::Painter;
use crate::progress::Progress;
use crate::setup::{Setup, buffer};

/// Which pictures are shown: after each entry that changed a pixel, or after one entry.
struct Pictures {
    painter: Painter,
    each: bool,
    at: Option<u64>,
    /// The buffer that is shown after entry `at`.
    number: usize,
}

pub fn run(given: &Given) -> Result<u8, Failure> {
    let pictures = Pictures {
        painter: Painter::new(given)?,
        each: given.has("picture"),
        at: given.number("at", 0, u64::MAX)?,
        number: buffer(given)?,
    };
    let mut setup = Setup::open(given)?;
    let traced = trace(&pictures, &mut setup);
    setup.finish()?;
    traced.map(|()| 0)
}

fn trace(pictures: &Pictures, setup: &mut Setup) -> Result<(), Failure> {
    setup.store()?;
    setup.judge()?;
    let mut output = Output::new();
    let mut progress = Progress::beside_output("trace");
    let mut before = Snapshot::of(setup);
    let (mut total, mut note) = (0, None);
    for place in 0..setup.list.len() / ENTRY_BYTES {
        let steps = step(setup, place)?;
        total += steps;
        let changes = before.changes(setup, steps);
        output.write(line(setup, place, steps, &changes).as_bytes())?;
        for number in pictures.after(place, &changes) {
            let (picture, cut) = setup.paint(&pictures.painter, number);
            output.write(picture.as_bytes())?;
            note = note.or(cut);
        }
        progress.tick(|| format!("entry {place}, {total} steps"));
    }
    drop(progress);
    output.write(setup.summary(total).as_bytes())?;
    output.flush()?;
    if let Some(note) = note {
        complain(&note);
    }
    setup.log_picture(pictures.number)
}

impl Pictures {
    /// The buffers that are shown after an entry with these changes.
    fn after(&self, place: usize, changes: &[Change]) -> Vec<usize> {
        if self.each && !changes.is_empty() {
            return changes.iter().map(|change| change.number).collect();
        }
        let here = self.at == Some(place as u64);
        here.then_some(self.number).into_iter().collect()
    }
}

/// Runs one entry, posted as a list of its own: registers, pattern and last point carry over. Its steps.
fn step(setup: &mut Setup, place: usize) -> Result<u64, Failure> {
    let posted = setup.panel.post(place, 1).ok();
    posted.map_err(|answer| setup.failed(answer))?;
    setup.run(u64::MAX)
}

/// The line of an entry.
fn line(setup: &Setup, place: usize, steps: u64, changes: &[Change]) -> String {
    let bytes = &setup.list[ENTRY_BYTES * place..][..ENTRY_BYTES];
    let entry = bytes.try_into().expect("an entry");
    let mut text = format!("{place:>4}  ");
    write_digits(entry, &mut text);
    text.push_str("  ");
    write_entry(entry, &mut text);
    let unit = if steps == 1 { "step" } else { "steps" };
    let mut line = format!("{text:<44}{steps:>6} {unit:<5}");
    for change in changes {
        line += &format!("  {change}");
    }
    if steps > 1 && changes.is_empty() {
        line += "  nothing changed";
    }
    line.truncate(line.trim_end().len());
    line + "\n"
}

/// Both buffers as they were.
struct Snapshot {
    buffers: [Vec<u8>; 2],
}

/// The pixels of a buffer that an entry changed.
#[derive(Debug, PartialEq, Eq)]
struct Change {
    number: usize,
    /// The first and the last column and row.
    left: usize,
    top: usize,
    right: usize,
    bottom: usize,
    pixels: usize,
}

impl fmt::Display for Change {
    fn fmt(&self, f: &mut fmt::Formatter<'_>) -> fmt::Result {
        let Change {
            number,
            left,
            top,
            right,
            bottom,
            pixels,
        } = *self;
        let name = ["display", "virtual"][number];
        let unit = if pixels == 1 { "pixel" } else { "pixels" };
        write!(
            f,
            "{name} ({left}, {top}) to ({right}, {bottom}), {pixels} {unit}"
        )
    }
}

impl Snapshot {
    fn of(setup: &Setup) -> Snapshot {
        let buffers = [DISPLAY, VIRTUAL].map(|number| setup.panel.buffer(number).to_vec());
        Snapshot { buffers }
    }

    /// What has changed since by an entry of so many steps, which is taken over. One step visits no pixel.
    fn changes(&mut self, setup: &Setup, steps: u64) -> Vec<Change> {
        if steps <= 1 {
            return Vec::new();
        }
        let width = setup.panel.board().width();
        let mut changes = Vec::new();
        for number in [DISPLAY, VIRTUAL] {
            let (before, after) = (&mut self.buffers[number], setup.panel.buffer(number));
            changes.extend(change(number, width, before, after));
        }
        changes
    }
}

/// What has changed in a buffer, which is taken over into `before`.
fn change(number: usize, width: usize, before: &mut [u8], after: &[u8]) -> Option<Change> {
    let mut all: Option<Change> = None;
    let rows = before.chunks_mut(width).zip(after.chunks(width));
    for (y, (old, new)) in rows.enumerate() {
        if old == new {
            continue;
        }
        let differ = |&x: &usize| old[x] != new[x];
        let pixels = (0..width).filter(differ).count();
        let left = (0..width).find(differ).unwrap_or(0);
        let right = (0..width).rev().find(differ).unwrap_or(0);
        old.copy_from_slice(new);
        let change = all.get_or_insert(Change {
            number,
            left,
            top: y,
            right,
            bottom: y,
            pixels: 0,
        });
        change.left = change.left.min(left);
        change.right = change.right.max(right);
        change.bottom = y;
        change.pixels += pixels;
    }
    all
}

#[cfg(test)]
mod tests {
    use super::change;

    #[test]
    fn the_rectangle_of_what_changed() {
        let mut before = [0; 20];
        let mut after = before;
        assert_eq!(change(0, 5, &mut before, &after), None);
        for at in [7, 8, 11] {
            after[at] = 1;
        }
        let found = change(1, 5, &mut before, &after).expect("a change");
        assert_eq!(found.to_string(), "virtual (1, 1) to (3, 2), 3 pixels");
        assert_eq!(before, after);
        after[19] = 2;
        let found = change(0, 5, &mut before, &after).expect("a change");
        assert_eq!(found.to_string(), "display (4, 3) to (4, 3), 1 pixel");
    }
}
