//! A list file on a board: stored at the front of list memory and posted, and what is said where the library refuses it.

use call_log::Panel;
use pramolyt::Answer;
use pramolyt::list::ENTRY_BYTES;

use crate::reasons::reason;

/// Why a call was refused.
pub struct Refusal {
    pub answer: Answer,
    pub why: String,
}

impl Refusal {
    /// In words, with the place and the number.
    pub fn text(&self) -> String {
        match self.answer {
            Answer::IllegalEntry { place } => {
                format!("answer 6 at entry {place}: {}", self.why)
            }
            answer => format!("answer {}: {}", answer.number(), self.why),
        }
    }
}

/// Stores the file's bytes.
pub fn store(panel: &mut Panel, file: &[u8]) -> Result<(), Refusal> {
    let answer = panel.store(0, file);
    let entries = panel.board().entries();
    judged(answer, file, entries)
}

/// Posts the file's entries, which are stored.
pub fn post(panel: &mut Panel, file: &[u8]) -> Result<(), Refusal> {
    let answer = panel.post(0, file.len() / ENTRY_BYTES);
    let entries = panel.board().entries();
    judged(answer, file, entries)
}

/// What a post of the file's entries would answer; nothing is posted.
pub fn judge(panel: &Panel, file: &[u8]) -> Result<(), Refusal> {
    let mut board = panel.board().clone();
    let answer = board.post(panel.list(), 0, file.len() / ENTRY_BYTES);
    judged(answer, file, board.entries())
}

/// The refusal that the answer is, if it is one.
fn judged(answer: Answer, file: &[u8], entries: usize) -> Result<(), Refusal> {
    let (count, left) = (file.len() / ENTRY_BYTES, file.len() % ENTRY_BYTES);
    let why = match answer {
        Answer::Done { .. } => return Ok(()),
        Answer::WrongSize => {
            format!("entry {count} has {left} of 5 bytes, then the file ends")
        }
        Answer::NoEntries => "the file is empty".into(),
        Answer::PastTheEnd => format!("{count} entries, and list memory has {entries}"),
        Answer::IllegalEntry { place } => illegal(file, place),
        other => other.to_string(),
    };
    Err(Refusal { answer, why })
}

/// Why the entry at this place of a list is illegal.
pub fn illegal(list: &[u8], place: u64) -> String {
    let entry = list.chunks_exact(ENTRY_BYTES).nth(place as usize);
    let entry: Option<[u8; ENTRY_BYTES]> = entry.and_then(|entry| entry.try_into().ok());
    entry.map_or_else(String::new, reason)
}
