//! What a line of the log says: a call, and what it handed back.

use std::borrow::Cow;
use std::fmt;

use pramolyt::{Answer, Feed};

/// A call, with its arguments other than the board record and the lent memories.
#[derive(Clone, Debug, PartialEq, Eq)]
pub enum Call<'a> {
    /// A fresh board.
    Make {
        /// Pixels in a row.
        width: usize,
        /// Rows.
        height: usize,
        /// Entries of list memory.
        entries: usize,
    },
    /// Entries into list memory.
    Store {
        /// The entry of list memory that the first goes to.
        first: usize,
        /// Their bytes.
        bytes: Cow<'a, [u8]>,
    },
    /// No call of the library: the caller himself writes over list memory, to mend it after answer 9 or by a fault.
    Overwrite {
        /// The first entry that is written over.
        first: usize,
        /// The bytes.
        bytes: Cow<'a, [u8]>,
    },
    /// A piece of a list.
    Feed {
        /// The feed record.
        feed: Feed,
        /// The piece.
        piece: Cow<'a, [u8]>,
    },
    /// A list to be drawn.
    Post {
        /// Its first entry.
        start: usize,
        /// Its entries.
        count: usize,
    },
    /// Steps of the posted lists.
    Run {
        /// So many at most.
        budget: u64,
    },
    /// A window write.
    Write {
        /// The number of the buffer.
        number: usize,
        /// Where the bytes go.
        offset: usize,
        /// The bytes.
        bytes: Cow<'a, [u8]>,
    },
    /// A buffer as a picture.
    Export {
        /// The number of the buffer.
        number: usize,
        /// The bytes that the output has.
        room: usize,
    },
    /// A picture into a buffer.
    Import {
        /// The number of the buffer.
        number: usize,
        /// The picture.
        picture: Cow<'a, [u8]>,
    },
}

impl Call<'_> {
    /// The bytes that the call is given, and how many of them stand together in the log.
    fn bytes(&self) -> Option<(&[u8], usize)> {
        match self {
            Call::Store { bytes, .. } | Call::Overwrite { bytes, .. } => Some((bytes, 5)),
            Call::Feed { piece, .. } => Some((piece, 5)),
            Call::Write { bytes, .. } => Some((bytes, 16)),
            Call::Import { picture, .. } => Some((picture, 16)),
            _ => None,
        }
    }

    /// The call without its bytes, for messages.
    pub fn head(&self) -> String {
        match self {
            Call::Make {
                width,
                height,
                entries,
            } => format!("make {width} {height} {entries}"),
            Call::Store { first, .. } => format!("store {first}"),
            Call::Overwrite { first, .. } => format!("overwrite {first}"),
            Call::Feed { feed, .. } => Record(feed).to_string(),
            Call::Post { start, count } => format!("post {start} {count}"),
            Call::Run { budget } => format!("run {budget}"),
            Call::Write { number, offset, .. } => format!("write {number} {offset}"),
            Call::Export { number, room } => format!("export {number} {room}"),
            Call::Import { number, .. } => format!("import {number}"),
        }
    }
}

impl fmt::Display for Call<'_> {
    fn fmt(&self, f: &mut fmt::Formatter<'_>) -> fmt::Result {
        f.write_str(&self.head())?;
        match self.bytes() {
            Some((bytes, group)) => write!(f, " {}", Hex(bytes, group)),
            None => Ok(()),
        }
    }
}

/// What a call handed back.
#[derive(Clone, Debug, PartialEq, Eq)]
pub struct Outcome {
    /// The answer's number.
    pub number: u32,
    /// What it handed back beside it.
    pub detail: Detail,
}

/// What a call handed back beside its number.
#[derive(Clone, Debug, PartialEq, Eq)]
pub enum Detail {
    /// Nothing.
    None,
    /// The place of the first illegal entry: a post with answer 6.
    Place(u64),
    /// The steps of a run with answer 0 or 9.
    Steps(u64),
    /// The picture of an export with answer 0.
    Picture(Vec<u8>),
    /// The feed record after a feed with answer 0.
    Feed(Feed),
}

impl Outcome {
    /// What a call with this answer handed back, where it was no run.
    pub fn of(answer: Answer) -> Outcome {
        let detail = match answer {
            Answer::IllegalEntry { place } => Detail::Place(place),
            _ => Detail::None,
        };
        Outcome::with(answer, detail)
    }

    /// What a run with this answer handed back.
    pub(crate) fn of_run(answer: Answer) -> Outcome {
        match answer {
            Answer::Done { steps } | Answer::IllegalFetch { steps } => {
                Outcome::with(answer, Detail::Steps(steps))
            }
            refused => Outcome::of(refused),
        }
    }

    /// What a feed with this answer handed back; `feed` is the record after it.
    pub(crate) fn of_feed(answer: Answer, feed: &Feed) -> Outcome {
        match answer {
            Answer::Done { .. } => Outcome::with(answer, Detail::Feed(feed.clone())),
            refused => Outcome::of(refused),
        }
    }

    /// What an export handed back: the picture, or why there is none.
    pub(crate) fn of_export(exported: Result<&[u8], Answer>) -> Outcome {
        match exported {
            Ok(picture) => Outcome {
                number: 0,
                detail: Detail::Picture(picture.to_vec()),
            },
            Err(refused) => Outcome::of(refused),
        }
    }

    fn with(answer: Answer, detail: Detail) -> Outcome {
        Outcome {
            number: answer.number(),
            detail,
        }
    }
}

impl fmt::Display for Outcome {
    fn fmt(&self, f: &mut fmt::Formatter<'_>) -> fmt::Result {
        let number = self.number;
        match &self.detail {
            Detail::None => write!(f, "{number}"),
            Detail::Place(place) => write!(f, "{number} place {place}"),
            Detail::Steps(steps) => write!(f, "{number} steps {steps}"),
            Detail::Picture(picture) => write!(f, "{number} picture {}", Hex(picture, 16)),
            Detail::Feed(feed) => write!(f, "{number} {}", Record(feed)),
        }
    }
}

/// A feed record: the next entry, how many bytes are held, and the four bytes.
struct Record<'a>(&'a Feed);

impl fmt::Display for Record<'_> {
    fn fmt(&self, f: &mut fmt::Formatter<'_>) -> fmt::Result {
        let (next, held, count) = self.0.parts();
        write!(f, "feed {next} {count} {}", Hex(&held, 4))
    }
}

/// Bytes as pairs of hex digits, so many together, and about 60 bytes a line. A dash where there are none.
struct Hex<'a>(&'a [u8], usize);

impl fmt::Display for Hex<'_> {
    fn fmt(&self, f: &mut fmt::Formatter<'_>) -> fmt::Result {
        let Hex(bytes, group) = *self;
        if bytes.is_empty() {
            return f.write_str("-");
        }
        let groups_a_line = 60 / group;
        for (at, bytes) in bytes.chunks(group).enumerate() {
            match at {
                0 => {}
                at if at % groups_a_line == 0 => f.write_str("\n  ")?,
                _ => f.write_str(" ")?,
            }
            for byte in bytes {
                write!(f, "{byte:02X}")?;
            }
        }
        Ok(())
    }
}
