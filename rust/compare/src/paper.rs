//! The paper board of document 01 beside an honest sequence.

use crate::call::Call;
use crate::sides::Memories;
use reference::{PaperBoard, Record, Report};

/// The paper board that begins with these bytes.
pub fn begin(width: u64, height: u64, memories: &Memories) -> PaperBoard {
    let Memories {
        list,
        display,
        virt,
    } = memories.clone();
    PaperBoard::new(width, height, list, display, virt)
}

/// The steps that are due where the call is a run that answers 0.
pub fn due(paper: &PaperBoard, call: &Call) -> u64 {
    match call {
        Call::Run { budget } => paper.steps_to_empty().min(*budget),
        _ => 0,
    }
}

/// Feeds the paper board a call. What document 01 says of the answers in such a sequence must hold; a feed may answer 1 for its
/// own record. `record` is the board record after the call, which is the one before it where the answer is 1.
pub fn follow(
    paper: &mut PaperBoard,
    call: &Call,
    report: &Report,
    record: &Record,
    due: u64,
) -> Result<(), String> {
    if report.number == 9 || report.number == 1 && record.malformed() {
        return Err(format!("answer {} in an honest sequence", report.number));
    }
    let done = report.number == 0;
    if done && report.steps != due {
        return Err(format!("{} steps, {due} by the paper board", report.steps));
    }
    match call {
        Call::Make { .. } | Call::FeedStart { .. } | Call::Export { .. } => {}
        Call::Post { start, count } => paper.post(*start, *count, done),
        Call::Store { first, bytes } => paper.store(*first, bytes, done),
        Call::Feed { feed, piece } => paper.feed(feed, piece, done),
        Call::WindowWrite {
            number,
            offset,
            bytes,
        } => paper.window_write(*number, *offset, bytes, done),
        Call::Import { number, picture } => paper.import(*number, picture, done),
        Call::Run { .. } => {
            paper.run(report.steps);
        }
    }
    Ok(())
}
