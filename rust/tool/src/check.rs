//! `check`: what the library answers to a list file.

use call_log::{Log, Panel};
use pramolyt::list::{ENTRY_BYTES, MAX_ENTRIES};

use crate::args::Given;
use crate::failure::Failure;
use crate::files::{Input, print};
use crate::posting;

/// Ends with the answer's number.
pub fn run(given: &Given) -> Result<u8, Failure> {
    let most = MAX_ENTRIES as u64;
    let entries = given.number("entries", 1, most)?.unwrap_or(most);
    let input = Input::open(&given.file)?;
    let name = input.name.clone();
    let file = input.read_all()?;
    let (made, mut panel) = Panel::make(Log::none(), 1, 1, entries as usize);
    made.ok()
        .map_err(|answer| Failure::Misuse(answer.to_string()))?;
    let checked = posting::store(&mut panel, &file).and_then(|()| posting::post(&mut panel, &file));
    match checked {
        Ok(()) => {
            let count = file.len() / ENTRY_BYTES;
            let unit = if count == 1 { "entry" } else { "entries" };
            print(&format!("{name}: answer 0: {count} {unit}\n"))?;
            Ok(0)
        }
        Err(refusal) => {
            print(&format!("{name}: {}\n", refusal.text()))?;
            Ok(refusal.answer.number() as u8)
        }
    }
}
