//! "The paper board of demand 3": a board that copies each list when it is posted.

use crate::calls::put_bytes;
use crate::drawing::Buffers;
use crate::entries::{entry_at, register, ENTRY_BYTES};
use crate::feeds::Feed;
use crate::record::Record;
use crate::state::{State, Step};
use std::collections::VecDeque;

/// What waits in the queue.
enum Waiting {
    /// A posted list: the span given, the copy of its entries, the next of them.
    List {
        span: (u64, u64),
        copy: Vec<u8>,
        next: usize,
    },
    /// A window write: the buffer's number, the offset, the bytes.
    Write {
        number: u64,
        offset: u64,
        bytes: Vec<u8>,
    },
}

/// "It has buffers and list memory of its own, beginning with the bytes lent at the
/// start, an empty queue, and all else that Steps and Pixels use, as on the fresh
/// board."
///
/// "It is fed each call's arguments other than the board record and the lent
/// memories, whether the answer was 0, and the steps a run reported."
pub struct PaperBoard {
    list: Vec<u8>,
    buffers: [Vec<u8>; 2],
    queue: VecDeque<Waiting>,
    state: State,
}

impl PaperBoard {
    /// Begins "with the bytes lent at the start".
    ///
    /// # Panics
    ///
    /// Where a buffer is not exactly width x height bytes.
    pub fn new(
        width: u64,
        height: u64,
        list: Vec<u8>,
        display: Vec<u8>,
        virt: Vec<u8>,
    ) -> PaperBoard {
        for buffer in [&display, &virt] {
            let pixels = u128::from(width) * u128::from(height);
            assert_eq!(buffer.len() as u128, pixels, "a buffer of another size");
        }
        let width = u32::try_from(width).expect("a width of the document's limits");
        let height = u32::try_from(height).expect("a height of the document's limits");
        PaperBoard {
            list,
            buffers: [display, virt],
            queue: VecDeque::new(),
            state: State::fresh(width, height),
        }
    }

    /// "A post answered 0 copies its list, as it then reads in that list memory, to
    /// the queue's end."
    pub fn post(&mut self, start: u64, count: u64, done: bool) {
        if !done {
            return;
        }
        let entries = self.list.chunks_exact(ENTRY_BYTES);
        let list = entries.skip(as_usize(start)).take(as_usize(count));
        self.queue.push_back(Waiting::List {
            span: (start, count),
            copy: list.flatten().copied().collect(),
            next: 0,
        });
    }

    /// "A store answered 0 puts its bytes into that list memory."
    pub fn store(&mut self, first: u64, bytes: &[u8], done: bool) {
        if done {
            let from = first.saturating_mul(ENTRY_BYTES as u64);
            put_bytes(&mut self.list, from, bytes);
        }
    }

    /// "In demand 3 an accepted piece counts as a store of the entries it completes,
    /// whatever feed record it is given." (document 02, R-5)
    pub fn feed(&mut self, feed: &Feed, piece: &[u8], done: bool) {
        let (whole, _) = feed.cut(piece);
        self.store(feed.next, &whole, done);
    }

    /// "A window write answered 0 goes to the queue's end".
    pub fn window_write(&mut self, number: u64, offset: u64, bytes: &[u8], done: bool) {
        if !done {
            return;
        }
        self.queue.push_back(Waiting::Write {
            number,
            offset,
            bytes: bytes.to_vec(),
        });
        self.do_front_writes();
    }

    /// "In demand 3 an accepted import is a window write" (document 02, R-9): of the
    /// whole buffer at offset 0. Nothing follows the pixels of an accepted picture.
    pub fn import(&mut self, number: u64, picture: &[u8], done: bool) {
        let pixels = self.display().len();
        let raster = &picture[picture.len().saturating_sub(pixels)..];
        self.window_write(number, 0, raster, done);
    }

    /// "in front, it is done at once without a step and leaves."
    fn do_front_writes(&mut self) {
        while let Some(Waiting::Write {
            number,
            offset,
            bytes,
        }) = self.queue.front()
        {
            if let Some(buffer) = self.buffers.get_mut(as_usize(*number)) {
                put_bytes(buffer, *offset, bytes);
            }
            self.queue.pop_front();
        }
    }

    /// "A run takes as many steps as it reported."
    ///
    /// The steps taken, which are fewer only where the queue has no more of them.
    pub fn run(&mut self, steps: u64) -> u64 {
        let mut taken = 0;
        while taken < steps && self.step() {
            taken += 1;
        }
        taken
    }

    /// "Each is a step as above on these buffers, its entries coming from the copy in
    /// front; a list leaves in the step that ends it." False where no step is left.
    fn step(&mut self) -> bool {
        let Some(Waiting::List { copy, next, .. }) = self.queue.front_mut() else {
            return false;
        };
        let [display, virt] = &mut self.buffers;
        let mut buffers = Buffers {
            width: self.state.width,
            height: self.state.height,
            pixels: [display, virt],
        };
        match self.state.step(copy, *next, &mut buffers) {
            Step::Fetched => *next += 1,
            Step::Visited => {}
            Step::Illegal => return false,
        }
        if !self.state.under_way && *next * ENTRY_BYTES == copy.len() {
            self.queue.pop_front();
            self.do_front_writes();
        }
        true
    }

    /// "the steps that would empty the queue": "Each list's steps are its entries
    /// plus the pixels its commands visit."
    ///
    /// Lists posted with answer 0 are legal; the count of another would stop at its
    /// illegal entry.
    pub fn steps_to_empty(&self) -> u64 {
        let mut state = self.state;
        let mut steps = finish_command(&mut state);
        for waiting in &self.queue {
            let Waiting::List { copy, next, .. } = waiting else {
                continue;
            };
            for place in *next..copy.len() / ENTRY_BYTES {
                let Some((number, data)) = entry_at(copy, place) else {
                    return steps;
                };
                state.write(number, data);
                steps += 1 + finish_command(&mut state);
            }
        }
        steps
    }

    /// How the board differs from this one after a call, if it does. "Equal after
    /// each call are both buffers, the list memory, the registers and the pattern
    /// state. The taken slots hold the spans given when the queue's lists were
    /// posted, the front one's active".
    pub fn difference(
        &self,
        record: &Record,
        list: &[u8],
        display: &[u8],
        virt: &[u8],
    ) -> Option<&'static str> {
        let pattern = (record.pattern_place, record.pattern_repeat);
        let clauses = [
            ("the display buffer", self.display() == display),
            ("the virtual buffer", self.virt() == virt),
            ("the list memory", self.list() == list),
            ("the registers", self.registers() == record.registers()),
            ("the pattern state", self.pattern() == pattern),
            ("the slots' spans", self.lists() == record.taken_spans()),
        ];
        clauses
            .iter()
            .find(|clause| !clause.1)
            .map(|clause| clause.0)
    }

    pub fn display(&self) -> &[u8] {
        &self.buffers[0]
    }

    pub fn virt(&self) -> &[u8] {
        &self.buffers[1]
    }

    pub fn list(&self) -> &[u8] {
        &self.list
    }

    /// The registers in the order of their numbers.
    pub fn registers(&self) -> [u32; register::COUNT] {
        self.state.registers
    }

    /// The pattern state: place and repeat.
    pub fn pattern(&self) -> (u32, u32) {
        (self.state.pattern_place, self.state.pattern_repeat)
    }

    /// The spans (start, count) of the queue's lists, the front one first.
    pub fn lists(&self) -> Vec<(u64, u64)> {
        let span = |waiting: &Waiting| match waiting {
            Waiting::List { span, .. } => Some(*span),
            Waiting::Write { .. } => None,
        };
        self.queue.iter().filter_map(span).collect()
    }
}

/// Ends the command under way, if any, without drawing; returns the pixels that it
/// had left to visit.
fn finish_command(state: &mut State) -> u64 {
    let pixels = state.pixels_left();
    if state.under_way {
        state.finish_command();
    }
    pixels
}

fn as_usize(number: u64) -> usize {
    usize::try_from(number).unwrap_or(usize::MAX)
}
