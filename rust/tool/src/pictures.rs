//! `import` and `export`: a binary PGM as the bytes of a buffer, and back.

use pramolyt::DISPLAY;

use crate::args::Given;
use crate::failure::Failure;
use crate::files::{Input, write_file};
use crate::setup;

pub fn import(given: &Given) -> Result<u8, Failure> {
    let mut panel = setup::board(given)?;
    let input = Input::open(&given.file)?;
    let name = input.name.clone();
    setup::import(&mut panel, DISPLAY, &name, &input.read_all()?)?;
    write_file(given.output(), panel.buffer(DISPLAY), true)?;
    Ok(0)
}

pub fn export(given: &Given) -> Result<u8, Failure> {
    let mut panel = setup::board(given)?;
    let input = Input::open(&given.file)?;
    let name = input.name.clone();
    let bytes = input.read_all()?;
    let (width, height) = (panel.board().width(), panel.board().height());
    if bytes.len() != width * height {
        return Err(Failure::Refused(format!(
            "{name}: {} bytes, and a buffer of {width} by {height} has {}",
            bytes.len(),
            width * height
        )));
    }
    let refused = |answer: pramolyt::Answer| Failure::Refused(format!("{name}: {answer}"));
    panel.write(DISPLAY, 0, &bytes).ok().map_err(refused)?;
    let picture = panel.export(DISPLAY).map_err(refused)?;
    write_file(given.output(), &picture, true)?;
    Ok(0)
}
