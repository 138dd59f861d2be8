//! A call with its arguments, other than the board record and the lent memories.

use reference::Feed;
use std::fmt;

/// The names of the calls, by [`Call::kind`].
pub const CALLS: [&str; 9] = [
    "make",
    "post",
    "store",
    "feed start",
    "feed",
    "window write",
    "export",
    "import",
    "run",
];

/// The answers that documents 01 and 02 allow each call, by [`Call::kind`].
pub const ALLOWED: [&[usize]; 9] = [
    &[0, 2],
    &[0, 1, 2, 3, 4, 5, 6],
    &[0, 1, 2, 4, 8],
    &[0],
    &[0, 1, 2, 4, 8],
    &[0, 1, 2, 4, 7],
    &[0, 1, 2, 4],
    &[0, 1, 2, 7, 11],
    &[0, 1, 2, 9],
];

/// A call.
pub enum Call {
    /// Make a board of this size.
    Make {
        /// Pixels in a row.
        width: u64,
        /// Rows.
        height: u64,
        /// Entries of list memory.
        entries: u64,
    },
    /// Post a list.
    Post {
        /// Its first entry.
        start: u64,
        /// Its entries.
        count: u64,
    },
    /// Store into list memory.
    Store {
        /// The first entry.
        first: u64,
        /// What is stored.
        bytes: Vec<u8>,
    },
    /// Start a feed record, which always succeeds.
    FeedStart {
        /// Its first entry.
        entry: u64,
    },
    /// Feed a piece.
    Feed {
        /// The feed record given.
        feed: Feed,
        /// The piece.
        piece: Vec<u8>,
    },
    /// Write into a buffer.
    WindowWrite {
        /// The buffer's number.
        number: u64,
        /// The place of the first byte.
        offset: u64,
        /// What is written.
        bytes: Vec<u8>,
    },
    /// Export a buffer.
    Export {
        /// The buffer's number.
        number: u64,
        /// The output, as lent.
        output: Vec<u8>,
    },
    /// Import a picture.
    Import {
        /// The buffer's number.
        number: u64,
        /// The picture.
        picture: Vec<u8>,
    },
    /// Run.
    Run {
        /// At most so many steps.
        budget: u64,
    },
}

impl Call {
    /// Which of [`CALLS`] it is.
    pub fn kind(&self) -> usize {
        match self {
            Call::Make { .. } => 0,
            Call::Post { .. } => 1,
            Call::Store { .. } => 2,
            Call::FeedStart { .. } => 3,
            Call::Feed { .. } => 4,
            Call::WindowWrite { .. } => 5,
            Call::Export { .. } => 6,
            Call::Import { .. } => 7,
            Call::Run { .. } => 8,
        }
    }
}

impl fmt::Display for Call {
    fn fmt(&self, f: &mut fmt::Formatter<'_>) -> fmt::Result {
        write!(f, "{}", CALLS[self.kind()])?;
        match self {
            Call::Make {
                width,
                height,
                entries,
            } => write!(f, " {width} by {height}, {entries} entries"),
            Call::Post { start, count } => write!(f, " start {start}, count {count}"),
            Call::Store { first, bytes } => write!(f, " first {first}, bytes {bytes:02X?}"),
            Call::FeedStart { entry } => write!(f, " entry {entry}"),
            Call::Feed { feed, piece } => write!(f, " {feed:02X?}, piece {piece:02X?}"),
            Call::WindowWrite {
                number,
                offset,
                bytes,
            } => write!(f, " number {number}, offset {offset}, bytes {bytes:02X?}"),
            Call::Export { number, output } => {
                write!(f, " number {number}, {} bytes of output", output.len())
            }
            Call::Import { number, picture } => {
                write!(f, " number {number}, picture {}", picture.escape_ascii())
            }
            Call::Run { budget } => write!(f, " budget {budget}"),
        }
    }
}
