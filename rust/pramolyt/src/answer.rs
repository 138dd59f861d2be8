use core::error::Error;
use core::fmt;

/// What a call answers. Where several grounds of refusal hold, it is the one with the lowest number.
///
/// In every refusal but [`Answer::IllegalFetch`] the board, the feed record and the lent memories stay as they were.
#[derive(Clone, Copy, Debug, PartialEq, Eq)]
#[must_use = "a call may be refused"]
pub enum Answer {
    /// 0: done.
    Done {
        /// The steps of a run; 0 for any other call.
        steps: u64,
    },
    /// 1: the record fails the test of a board record, or a feed record is bad. The test of a board record looks at the
    /// record alone; not every change is seen.
    Malformed,
    /// 2: a size or a length is wrong, or a buffer number; each call says which.
    WrongSize,
    /// 3: a list of no entries.
    NoEntries,
    /// 4: a span passes the end of its memory; of a feed, the entries that the piece completes do; of an export, the output is
    /// shorter than the picture.
    PastTheEnd,
    /// 5: both slots are taken.
    SlotsFull,
    /// 6: the list has an illegal entry.
    IllegalEntry {
        /// The first one, counted over the whole list memory.
        place: u64,
    },
    /// 7: a window write or an import while a slot is taken.
    Busy,
    /// 8: a store touches, or a feed's piece completes, an entry of a list in a slot.
    EntryHeld,
    /// 9: a run came to an illegal entry.
    IllegalFetch {
        /// The steps before it, which stand.
        steps: u64,
    },
    /// 11: the input of an import is not one picture of the board's size, or has bytes after it.
    NotAPicture,
}

impl Answer {
    /// What the library wrote. It answers with no other numbers.
    pub(crate) fn from_report(number: u32, place: u64, steps: u64) -> Answer {
        match (number, place, steps) {
            (0, 0, steps) => Answer::Done { steps },
            (1, 0, 0) => Answer::Malformed,
            (2, 0, 0) => Answer::WrongSize,
            (3, 0, 0) => Answer::NoEntries,
            (4, 0, 0) => Answer::PastTheEnd,
            (5, 0, 0) => Answer::SlotsFull,
            (6, place, 0) => Answer::IllegalEntry { place },
            (7, 0, 0) => Answer::Busy,
            (8, 0, 0) => Answer::EntryHeld,
            (9, 0, steps) => Answer::IllegalFetch { steps },
            (11, 0, 0) => Answer::NotAPicture,
            _ => unreachable!("answer {number}, place {place}, steps {steps}"),
        }
    }

    /// The paper's number, 0 to 9 or 11.
    pub fn number(self) -> u32 {
        match self {
            Answer::Done { .. } => 0,
            Answer::Malformed => 1,
            Answer::WrongSize => 2,
            Answer::NoEntries => 3,
            Answer::PastTheEnd => 4,
            Answer::SlotsFull => 5,
            Answer::IllegalEntry { .. } => 6,
            Answer::Busy => 7,
            Answer::EntryHeld => 8,
            Answer::IllegalFetch { .. } => 9,
            Answer::NotAPicture => 11,
        }
    }

    /// The place of the first illegal entry; 0 in any other answer.
    pub fn place(self) -> u64 {
        match self {
            Answer::IllegalEntry { place } => place,
            _ => 0,
        }
    }

    /// The steps of a run; 0 in any other answer.
    pub fn steps(self) -> u64 {
        match self {
            Answer::Done { steps } | Answer::IllegalFetch { steps } => steps,
            _ => 0,
        }
    }

    /// The steps of a call that is done, a refusal as the error.
    pub fn ok(self) -> Result<u64, Answer> {
        match self {
            Answer::Done { steps } => Ok(steps),
            refusal => Err(refusal),
        }
    }
}

impl fmt::Display for Answer {
    fn fmt(&self, f: &mut fmt::Formatter<'_>) -> fmt::Result {
        match self {
            Answer::Done { steps: 0 } => write!(f, "done"),
            Answer::Done { steps } => write!(f, "done, {steps} steps"),
            Answer::Malformed => write!(
                f,
                "the board record or the feed record is damaged or was never made, or the feed starts past the end of list \
                 memory; make it anew"
            ),
            Answer::WrongSize => write!(
                f,
                "a size is wrong: the board's, a memory's, the buffer number, or bytes that are no whole entries"
            ),
            Answer::NoEntries => write!(f, "the list has no entries"),
            Answer::PastTheEnd => write!(
                f,
                "the span passes the end of its memory, or the output is too short for the picture"
            ),
            Answer::SlotsFull => {
                write!(f, "two lists are waiting already; run one to its end first")
            }
            Answer::IllegalEntry { place } => {
                write!(f, "entry {place} is illegal; the list was not posted")
            }
            Answer::Busy => write!(
                f,
                "a list is still to be drawn; run it to its end before writing a buffer or importing a picture"
            ),
            Answer::EntryHeld => write!(
                f,
                "a list that is still to be drawn has one of these entries"
            ),
            Answer::IllegalFetch { steps } => {
                write!(
                    f,
                    "an illegal entry stopped the run after {steps} steps; list memory or the record was changed since the post"
                )
            }
            Answer::NotAPicture => write!(
                f,
                "the input is not one binary PGM picture of the board's size with greatest grey 255, or has bytes after it"
            ),
        }
    }
}

impl Error for Answer {}
