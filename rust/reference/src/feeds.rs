//! "Lists over the serial line" (document 02, R-5): "Bytes reach us cut at odd
//! places."

use crate::calls::{is_list_memory, passes_end, put_bytes, touches_held_entry, Report};
use crate::entries::ENTRY_BYTES;
use crate::record::Record;

/// "holds up to four bytes of an unfinished one".
pub const MOST_HELD: usize = 4;

/// "A feed record starts at a named list entry, any number, and holds up to four
/// bytes of an unfinished one, the unused ones zero." The first `count` bytes of
/// `held` are used.
#[derive(Clone, Copy, PartialEq, Eq, Debug)]
pub struct Feed {
    pub next: u64,
    pub held: [u8; MOST_HELD],
    pub count: u32,
}

impl Feed {
    /// "starts at a named list entry, any number".
    pub fn start(entry: u64) -> Feed {
        Feed {
            next: entry,
            held: [0; MOST_HELD],
            count: 0,
        }
    }

    /// The clauses of "a bad feed record (next entry past the memory's end, more than
    /// four held bytes, an unused one not zero)" that hold for a memory of so many
    /// entries; it is good where there are none.
    pub fn faults(&self, entries: u64) -> Vec<&'static str> {
        let mut unused = self.held.iter().skip(self.count as usize);
        let clauses = [
            ("the next entry is past the end", self.next > entries),
            ("more than four held bytes", self.count as usize > MOST_HELD),
            ("an unused byte is not zero", unused.any(|&byte| byte != 0)),
        ];
        clauses.iter().filter(|c| c.1).map(|c| c.0).collect()
    }

    /// The held bytes and the piece, joined.
    pub fn joined(&self, piece: &[u8]) -> Vec<u8> {
        let held = self.held.iter().take(self.count as usize);
        held.chain(piece).copied().collect()
    }

    /// The bytes of the entries that a piece completes, and those of the unfinished one.
    pub fn cut(&self, piece: &[u8]) -> (Vec<u8>, Vec<u8>) {
        let mut whole = self.joined(piece);
        let rest = whole.split_off(whole.len() / ENTRY_BYTES * ENTRY_BYTES);
        (whole, rest)
    }
}

/// "Each completed entry goes into list memory." "Refusals, which hand both records
/// back as given, in order: 1 [..]; 2; 4 and 8 when an entry that the piece completes
/// would be past the end, or is held by a slot."
pub fn feed(record: &mut Record, feed: &mut Feed, list: &mut [u8], piece: &[u8]) -> Report {
    let entries = u64::from(record.entries);
    if record.malformed() || !feed.faults(entries).is_empty() {
        return Report::plain(1);
    }
    if !is_list_memory(record, list) {
        return Report::plain(2);
    }
    let (whole, rest) = feed.cut(piece);
    let completed = (whole.len() / ENTRY_BYTES) as u64;
    if passes_end(feed.next, completed, entries) {
        return Report::plain(4);
    }
    if touches_held_entry(record, feed.next, completed) {
        return Report::plain(8);
    }
    for entry in whole.chunks(ENTRY_BYTES) {
        put_bytes(list, feed.next * ENTRY_BYTES as u64, entry);
        feed.next += 1;
    }
    *feed = Feed::start(feed.next);
    feed.held[..rest.len()].copy_from_slice(&rest);
    feed.count = rest.len() as u32;
    Report::plain(0)
}
