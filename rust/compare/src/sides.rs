//! The two sides of the comparison: the engine through its safe wrapper, and the reference.

use crate::call::Call;
use pramolyt::{Answer, Board};
use reference::entries::entry_at;
use reference::state::State;
use reference::{Feed, Record, Report};

/// The memories that a side lends to its calls.
#[derive(Clone)]
pub struct Memories {
    /// List memory.
    pub list: Vec<u8>,
    /// The display buffer.
    pub display: Vec<u8>,
    /// The virtual buffer.
    pub virt: Vec<u8>,
}

impl Memories {
    /// The buffer that is lent for a number; the display buffer where there is none of that number.
    fn buffer(&mut self, number: u64) -> &mut [u8] {
        match number {
            1 => &mut self.virt,
            _ => &mut self.display,
        }
    }
}

/// The engine's side.
pub struct Engine {
    /// Its board.
    pub board: Board,
    /// The feed record that its last feed left.
    pub feed: pramolyt::Feed,
    /// The output that its last export left.
    pub output: Vec<u8>,
    /// Its memories.
    pub memories: Memories,
}

impl Engine {
    /// One call.
    pub fn call(&mut self, call: &Call) -> Report {
        let Engine {
            board,
            feed,
            output,
            memories,
        } = self;
        let answer = match call {
            Call::Make {
                width,
                height,
                entries,
            } => {
                let (answer, made) = Board::make(size(*width), size(*height), size(*entries));
                *board = made;
                answer
            }
            Call::Post { start, count } => board.post(&memories.list, size(*start), size(*count)),
            Call::Store { first, bytes } => board.store(&mut memories.list, size(*first), bytes),
            Call::FeedStart { entry } => {
                *feed = pramolyt::Feed::start(size(*entry));
                Answer::Done { steps: 0 }
            }
            Call::Feed { feed: given, piece } => {
                *feed = engine_feed(given);
                board.feed(feed, &mut memories.list, piece)
            }
            Call::WindowWrite {
                number,
                offset,
                bytes,
            } => {
                let lent = memories.buffer(*number);
                board.window_write(size(*number), size(*offset), bytes, lent)
            }
            Call::Export {
                number,
                output: lent,
            } => {
                output.clone_from(lent);
                let buffer = memories.buffer(*number);
                return export_report(board.export(size(*number), buffer, output));
            }
            Call::Import { number, picture } => {
                board.import(size(*number), picture, memories.buffer(*number))
            }
            Call::Run { budget } => {
                let Memories {
                    list,
                    display,
                    virt,
                } = memories;
                board.run(*budget, list, display, virt)
            }
        };
        engine_report(answer)
    }
}

/// The engine's feed record with the parts of the reference's.
pub fn engine_feed(feed: &Feed) -> pramolyt::Feed {
    pramolyt::Feed::from_parts(size(feed.next), feed.held, feed.count)
}

/// A usize has 64 bits wherever the library is.
fn size(number: u64) -> usize {
    number as usize
}

/// What the engine answered.
pub fn engine_report(answer: Answer) -> Report {
    Report {
        place: answer.place(),
        steps: answer.steps(),
        ..Report::plain(answer.number())
    }
}

/// What the engine's export answered.
pub fn export_report(answer: Result<usize, Answer>) -> Report {
    match answer {
        Ok(written) => Report {
            written: written as u64,
            ..Report::plain(0)
        },
        Err(refusal) => engine_report(refusal),
    }
}

/// The reference's side.
#[derive(Clone)]
pub struct Reference {
    /// Its board record.
    pub record: Record,
    /// The feed record that its last feed left.
    pub feed: Feed,
    /// The output that its last export left.
    pub output: Vec<u8>,
    /// Its memories.
    pub memories: Memories,
}

impl Reference {
    /// One call.
    pub fn call(&mut self, call: &Call) -> Report {
        let Reference {
            record,
            feed,
            output,
            memories,
        } = self;
        match call {
            Call::Make {
                width,
                height,
                entries,
            } => {
                let (report, made) = reference::make(*width, *height, *entries);
                *record = made;
                report
            }
            Call::Post { start, count } => reference::post(record, &memories.list, *start, *count),
            Call::Store { first, bytes } => {
                reference::store(record, &mut memories.list, *first, bytes)
            }
            Call::FeedStart { entry } => {
                *feed = Feed::start(*entry);
                Report::plain(0)
            }
            Call::Feed { feed: given, piece } => {
                *feed = *given;
                reference::feed(record, feed, &mut memories.list, piece)
            }
            Call::WindowWrite {
                number,
                offset,
                bytes,
            } => {
                let lent = memories.buffer(*number);
                reference::window_write(record, *number, *offset, bytes, lent)
            }
            Call::Export {
                number,
                output: lent,
            } => {
                output.clone_from(lent);
                reference::export(record, *number, memories.buffer(*number), output)
            }
            Call::Import { number, picture } => {
                reference::import(record, *number, picture, memories.buffer(*number))
            }
            Call::Run { budget } => {
                let Memories {
                    list,
                    display,
                    virt,
                } = memories;
                reference::run(record, *budget, list, display, virt)
            }
        }
    }

    /// The steps that a run would take, where they are fewer than the limit. Nothing is drawn.
    pub fn steps_left(&self, limit: u64) -> Option<u64> {
        let Reference {
            record, memories, ..
        } = self;
        if record.malformed() {
            return Some(0);
        }
        let mut state = record.state();
        let mut steps = finish(&mut state);
        let mut next = u64::from(record.next);
        for (start, count) in record.taken_spans() {
            for place in next.max(start)..start + count {
                let Some((number, data)) = entry_at(&memories.list, place as usize) else {
                    return (steps < limit).then_some(steps);
                };
                state.write(number, data);
                steps += 1 + finish(&mut state);
                if steps >= limit {
                    return None;
                }
            }
            next = 0;
        }
        (steps < limit).then_some(steps)
    }
}

/// Ends the command under way; the pixels that it had left.
fn finish(state: &mut State) -> u64 {
    let pixels = state.pixels_left();
    if state.under_way {
        state.finish_command();
    }
    pixels
}

#[cfg(test)]
mod tests {
    use super::{Memories, Reference};
    use crate::call::Call;
    use crate::lists::{Size, list};
    use crate::random::Random;
    use crate::spoil::anywhere;
    use reference::{Feed, Record};

    #[test]
    fn steps_are_counted_as_a_run_takes_them() {
        const LIMIT: u64 = 30;
        let size = Size {
            width: 8,
            height: 4,
        };
        let mut random = Random::new(1);
        let (mut counted, mut more) = (0, 0);
        for _ in 0..2_000 {
            let mut side = Reference {
                record: anywhere(&mut random, Record::fresh(8, 4, 12)),
                feed: Feed::start(0),
                output: Vec::new(),
                memories: Memories {
                    list: list(&mut random, size, 12),
                    display: vec![0; 32],
                    virt: vec![0; 32],
                },
            };
            let left = side.steps_left(LIMIT);
            let steps = side.call(&Call::Run { budget: LIMIT }).steps;
            assert_eq!(left, (steps < LIMIT).then_some(steps));
            counted += u64::from(left.is_some_and(|left| left > 0));
            more += u64::from(left.is_none());
        }
        assert!(counted > 100 && more > 100, "{counted}, {more}");
    }
}
