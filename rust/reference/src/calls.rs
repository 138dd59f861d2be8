//! "What the host hears": the five calls of document 01. "The lowest number wins", so
//! each call tries its grounds in the order of their numbers.

use crate::drawing::Buffers;
use crate::entries::{entry_at, ENTRY_BYTES};
use crate::record::{sizes_legal, Record};
use crate::state::Step;

/// The answer's number, the place of the first illegal entry, the steps done and the
/// bytes that an export wrote. "The place is zero but in 6, the step count but in 9 and
/// in a done run"; the bytes but in a done export.
#[derive(Clone, Copy, PartialEq, Eq, Debug)]
pub struct Report {
    pub number: u32,
    pub place: u64,
    pub steps: u64,
    pub written: u64,
}

impl Report {
    /// An answer in which the other numbers are zero.
    pub fn plain(number: u32) -> Report {
        Report {
            number,
            place: 0,
            steps: 0,
            written: 0,
        }
    }
}

/// "Make: 2, returning then the fresh 1 by 1 board with 1 entry."
pub fn make(width: u64, height: u64, entries: u64) -> (Report, Record) {
    if sizes_legal(width, height, entries) {
        let record = Record::fresh(width as u32, height as u32, entries as u32);
        (Report::plain(0), record)
    } else {
        (Report::plain(2), Record::fresh(1, 1, 1))
    }
}

/// "A post takes the active slot if it is free, the next entry then being the
/// list's start, else the pending slot." "Post: 1 to 6."
pub fn post(record: &mut Record, list: &[u8], start: u64, count: u64) -> Report {
    if record.malformed() {
        return Report::plain(1);
    }
    if !is_list_memory(record, list) {
        return Report::plain(2);
    }
    if count == 0 {
        return Report::plain(3);
    }
    if passes_end(start, count, record.entries.into()) {
        return Report::plain(4);
    }
    if record.active_taken == 1 && record.pending_taken == 1 {
        return Report::plain(5);
    }
    for place in start..start + count {
        if entry_at(list, place as usize).is_none() {
            return Report {
                place,
                ..Report::plain(6)
            };
        }
    }
    if record.active_taken == 0 {
        record.active_taken = 1;
        record.active_start = start as u32;
        record.active_count = count as u32;
        record.next = start as u32;
    } else {
        record.pending_taken = 1;
        record.pending_start = start as u32;
        record.pending_count = count as u32;
    }
    Report::plain(0)
}

/// "List store: 1, 2, 4, 8." "A done store puts its bytes into list memory from its
/// first entry on".
pub fn store(record: &mut Record, list: &mut [u8], first: u64, bytes: &[u8]) -> Report {
    if record.malformed() {
        return Report::plain(1);
    }
    if !is_list_memory(record, list) || !bytes.len().is_multiple_of(ENTRY_BYTES) {
        return Report::plain(2);
    }
    let count = (bytes.len() / ENTRY_BYTES) as u64;
    if passes_end(first, count, record.entries.into()) {
        return Report::plain(4);
    }
    if touches_held_entry(record, first, count) {
        return Report::plain(8);
    }
    put_bytes(list, first * ENTRY_BYTES as u64, bytes);
    Report::plain(0)
}

/// "Window write (buffer, offset, bytes): 1, 2, 4, 7." "a done window write [puts
/// its bytes] into its buffer from its offset on". It is lent "the named buffer".
pub fn window_write(
    record: &mut Record,
    number: u64,
    offset: u64,
    bytes: &[u8],
    buffer: &mut [u8],
) -> Report {
    if record.malformed() {
        return Report::plain(1);
    }
    if number > 1 || !is_buffer(record, buffer) {
        return Report::plain(2);
    }
    if passes_end(offset, bytes.len() as u64, buffer.len() as u64) {
        return Report::plain(4);
    }
    if record.active_taken == 1 || record.pending_taken == 1 {
        return Report::plain(7);
    }
    put_bytes(buffer, offset, bytes);
    Report::plain(0)
}

/// "Run takes a budget and reports its steps: the lesser of the budget and the steps
/// left in both lists, unless it answers 9." "Run: 1, 2, 9."
pub fn run(
    record: &mut Record,
    budget: u64,
    list: &[u8],
    display: &mut [u8],
    virt: &mut [u8],
) -> Report {
    if record.malformed() {
        return Report::plain(1);
    }
    if !is_list_memory(record, list) || !is_buffer(record, display) || !is_buffer(record, virt) {
        return Report::plain(2);
    }
    let mut buffers = Buffers {
        width: record.width,
        height: record.height,
        pixels: [display, virt],
    };
    let mut state = record.state();
    let mut report = Report::plain(0);
    while report.steps < budget && record.active_taken == 1 {
        match state.step(list, record.next as usize, &mut buffers) {
            Step::Fetched => record.next += 1,
            Step::Visited => {}
            Step::Illegal => {
                report.number = 9;
                break;
            }
        }
        report.steps += 1;
        if !state.under_way && record.next == record.active_start + record.active_count {
            end_active_list(record);
        }
    }
    record.set_state(&state);
    report
}

/// "A list ends with the step after which it has neither entries nor pixels left;
/// the pending list then becomes active in that same step."
fn end_active_list(record: &mut Record) {
    record.active_taken = record.pending_taken;
    record.active_start = record.pending_start;
    record.active_count = record.pending_count;
    record.next = record.pending_start;
    record.pending_taken = 0;
    record.pending_start = 0;
    record.pending_count = 0;
}

/// "a list memory of 5 bytes an entry"; else "a lent memory of another size".
pub(crate) fn is_list_memory(record: &Record, list: &[u8]) -> bool {
    list.len() == ENTRY_BYTES * record.entries as usize
}

/// A buffer is "exactly width x height bytes"; else "a lent memory of another size".
pub(crate) fn is_buffer(record: &Record, buffer: &[u8]) -> bool {
    buffer.len() == record.width as usize * record.height as usize
}

/// "span passes the end of its memory".
pub(crate) fn passes_end(start: u64, count: u64, end: u64) -> bool {
    u128::from(start) + u128::from(count) > u128::from(end)
}

/// "store touches an entry of the active or pending list"; one of no bytes "touches
/// no entry".
pub(crate) fn touches_held_entry(record: &Record, first: u64, count: u64) -> bool {
    let spans = record.taken_spans();
    let held = |place: u64| {
        let mut spans = spans.iter();
        spans.any(|&(start, length)| start <= place && place < start + length)
    };
    (first..first + count).any(held)
}

/// Puts bytes into a memory from a place on. "Lent bytes that no rule writes stay".
pub(crate) fn put_bytes(memory: &mut [u8], from: u64, bytes: &[u8]) {
    let from = usize::try_from(from).unwrap_or(usize::MAX);
    for (old, new) in memory.iter_mut().skip(from).zip(bytes) {
        *old = *new;
    }
}
