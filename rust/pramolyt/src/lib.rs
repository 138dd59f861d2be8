//! Safe access to libpramolyt.a, a drawing engine proved to do what its paper says.
//!
//! A [`Board`] draws display lists into two picture buffers, display and virtual, of one byte a pixel. A display list is a
//! span of list memory; its entries are 5 bytes each, a register number and 32 bits of data. The caller owns the three
//! memories and lends them to each call.
//!
//! ```
//! use pramolyt::{Answer, Board};
//!
//! let (made, mut board) = Board::make(8, 4, 4);
//! made.ok()?;
//! let mut list = [0; 5 * 4];
//! let (mut display, mut virt) = ([0; 8 * 4], [0; 8 * 4]);
//!
//! // FORE 7; CMD a solid LINE, raster code copy; XY0 (0, 0); XY1 (4, 2), which draws it.
//! let line = [8, 0, 0, 0, 7, 0, 0x23, 0x80, 0, 0, 0x48, 0, 0, 0, 0, 0x60, 0, 4, 0, 2];
//! board.store(&mut list, 0, &line).ok()?;
//! board.post(&list, 0, 4).ok()?;
//! assert_eq!(board.run(1_000, &list, &mut display, &mut virt), Answer::Done { steps: 9 });
//! assert_eq!(display[8..16], [0, 0, 7, 7, 0, 0, 0, 0]);
//! # Ok::<(), Answer>(())
//! ```
//!
//! A list that comes in pieces, cut anywhere, goes into list memory by [`Board::feed`], with a [`Feed`] that holds the bytes of
//! an entry not yet whole.
//!
//! [`Board::export`] writes a buffer as a picture in binary PGM, and [`Board::import`] reads one.
//!
//! [`pack`] and [`unpack`] take a list file from one edition to the other and need no board.
//!
//! The crate is `no_std`. The library has no state of its own: separate boards may run on separate threads at once.
#![no_std]
#![deny(missing_docs)]

#[cfg(not(all(target_arch = "x86_64", target_pointer_width = "64")))]
compile_error!("libpramolyt.a is for x86-64");

#[cfg(test)]
extern crate std;

mod answer;
mod feed;
mod ffi;
pub mod list;
mod packing;
mod pictures;
#[cfg(test)]
mod tests;

pub use answer::Answer;
pub use feed::Feed;
pub use packing::{FileAnswer, list_size, pack, packed_size, unpack};
pub use pictures::picture_max;

/// The number of the display buffer.
pub const DISPLAY: usize = 0;
/// The number of the virtual buffer.
pub const VIRTUAL: usize = 1;

/// The words of a board record.
pub const WORDS: usize = 61;

/// A board: its sizes, the lists posted to it, the command under way, the registers.
///
/// Every call takes every number and memories of every length; what does not fit is refused.
#[derive(Clone, Debug, PartialEq, Eq)]
#[repr(C)]
pub struct Board {
    words: [u32; WORDS],
}

impl Board {
    /// A fresh board. Width and height are 1 to 2,048, entries 1 to 4,096; with other sizes the answer is
    /// [`Answer::WrongSize`] and the board is the 1 by 1 board with 1 entry.
    pub fn make(width: usize, height: usize, entries: usize) -> (Answer, Board) {
        let mut board = Board::from_words([u32::MAX; WORDS]);
        // SAFETY: the library writes the WORDS words of the record and nothing else.
        let number = unsafe { ffi::pramolyt_make(&mut board, width, height, entries) };
        (Answer::from_report(number, 0, 0), board)
    }

    /// The board with these words, as [`Board::words`] gave them. Any words will do: each call refuses words that fail the
    /// test of a board record as [`Answer::Malformed`]. Not every change is seen.
    pub fn from_words(words: [u32; WORDS]) -> Board {
        Board { words }
    }

    /// The words of the record, in the order of the C header's struct.
    pub fn words(&self) -> [u32; WORDS] {
        self.words
    }

    /// Pixels in a row of a buffer.
    pub fn width(&self) -> usize {
        self.words[0] as usize
    }

    /// Rows of a buffer.
    pub fn height(&self) -> usize {
        self.words[1] as usize
    }

    /// Entries of list memory, of 5 bytes each.
    pub fn entries(&self) -> usize {
        self.words[2] as usize
    }

    /// Whether no list is left to be drawn.
    pub fn is_idle(&self) -> bool {
        self.words[3] == 0
    }

    /// The active list's next entry, counted over the whole list memory; after [`Answer::IllegalFetch`] the illegal one.
    pub fn next_entry(&self) -> usize {
        self.words[9] as usize
    }

    /// Whether the record holds a tile: that of a fill with [`Flags::APAT`](list::Flags::APAT) under way, unless it lies
    /// partly outside its source buffer.
    pub fn holds_tile(&self) -> bool {
        self.words[28] != 0
    }

    /// Posts the list of `count` entries from entry `start` on. Two lists can wait at a time. The answer is
    /// [`Answer::WrongSize`] where `list` has not 5 bytes an entry of the board.
    pub fn post(&mut self, list: &[u8], start: usize, count: usize) -> Answer {
        let mut place = u64::MAX;
        // SAFETY: pointers and lengths are those of live, borrowed memory; board, place and list do not overlap.
        let number = unsafe {
            ffi::pramolyt_post(self, &mut place, list.as_ptr(), list.len(), start, count)
        };
        Answer::from_report(number, place, 0)
    }

    /// Stores bytes, 5 an entry, into list memory from entry `first` on. The answer is [`Answer::WrongSize`] where `list` has
    /// not 5 bytes an entry of the board, or the length of `bytes` is no multiple of 5.
    pub fn store(&mut self, list: &mut [u8], first: usize, bytes: &[u8]) -> Answer {
        // SAFETY: as in post; list is borrowed alone, so bytes do not overlap it.
        let number = unsafe {
            ffi::pramolyt_store(
                self,
                list.as_mut_ptr(),
                list.len(),
                first,
                bytes.as_ptr(),
                bytes.len(),
            )
        };
        Answer::from_report(number, 0, 0)
    }

    /// Stores a piece of a list that comes in pieces, cut anywhere. The bytes that `feed` holds and those of `piece` are read one
    /// after the other: each entry that they complete goes into list memory, from the feed's next entry on, and the up to four
    /// bytes left over are held. Whether an entry is legal is for [`Board::post`] to say.
    ///
    /// The answer is [`Answer::Malformed`] where `feed` is bad, too: its next entry is past the end of list memory, it holds
    /// more than four bytes, or an unused one is not zero. It is [`Answer::WrongSize`] where `list` has not 5 bytes an entry of
    /// the board, [`Answer::PastTheEnd`] or [`Answer::EntryHeld`] where an entry that the piece completes would be past the end
    /// or is one of a list in a slot. In a refusal nothing of the piece is taken: the same piece may be fed again later.
    ///
    /// ```
    /// use pramolyt::{Answer, Board, Feed};
    ///
    /// let (made, mut board) = Board::make(8, 4, 4);
    /// made.ok()?;
    /// let mut list = [0; 5 * 4];
    ///
    /// // FORE 7, then CMD a solid LINE, raster code copy, in three pieces
    /// let mut feed = Feed::start(0);
    /// board.feed(&mut feed, &mut list, &[8, 0, 0]).ok()?;
    /// assert_eq!((feed.next_entry(), feed.held()), (0, &[8, 0, 0][..]));
    /// board.feed(&mut feed, &mut list, &[0, 7, 0, 0x23, 0x80]).ok()?;
    /// assert_eq!((feed.next_entry(), feed.held()), (1, &[0, 0x23, 0x80][..]));
    /// board.feed(&mut feed, &mut list, &[0, 0]).ok()?;
    /// assert_eq!((feed.next_entry(), feed.held()), (2, &[][..]));
    /// assert_eq!(list[..10], [8, 0, 0, 0, 7, 0, 0x23, 0x80, 0, 0]);
    /// # Ok::<(), Answer>(())
    /// ```
    pub fn feed(&mut self, feed: &mut Feed, list: &mut [u8], piece: &[u8]) -> Answer {
        // SAFETY: as in store; board and feed are borrowed alone, and `held` has 4 bytes.
        let number = unsafe {
            ffi::pramolyt_feed_fields(
                self,
                &mut feed.next,
                feed.held.as_mut_ptr(),
                &mut feed.count,
                list.as_mut_ptr(),
                list.len(),
                piece.as_ptr(),
                piece.len(),
            )
        };
        Answer::from_report(number, 0, 0)
    }

    /// Writes bytes into a buffer from `offset` on. `number` is [`DISPLAY`] or [`VIRTUAL`], and `buffer` that buffer. The
    /// answer is [`Answer::WrongSize`] with another number, or where `buffer` has not a byte for each pixel.
    pub fn window_write(
        &mut self,
        number: usize,
        offset: usize,
        bytes: &[u8],
        buffer: &mut [u8],
    ) -> Answer {
        // SAFETY: as in store.
        let number = unsafe {
            ffi::pramolyt_window_write(
                self,
                number,
                offset,
                bytes.as_ptr(),
                bytes.len(),
                buffer.as_mut_ptr(),
                buffer.len(),
            )
        };
        Answer::from_report(number, 0, 0)
    }

    /// Draws the posted lists for at most `budget` steps; a step is an entry fetched or a pixel visited. A blit visits only
    /// pixels inside the buffer and its clip, a line hidden ones too. The answer is [`Answer::WrongSize`] where `list` has not
    /// 5 bytes an entry of the board, or a buffer not a byte for each pixel.
    ///
    /// [`Answer::IllegalFetch`] means that list memory or the record is not as the last call left it. The list stays
    /// posted, and a further run stops there again. To go on, write a legal entry over that one, [`Board::next_entry`],
    /// in list memory ([`Board::store`] there is refused) and run again, or make the board anew.
    pub fn run(&mut self, budget: u64, list: &[u8], display: &mut [u8], virt: &mut [u8]) -> Answer {
        let mut steps = u64::MAX;
        // SAFETY: as in store; both buffers are borrowed alone.
        let number = unsafe {
            ffi::pramolyt_run(
                self,
                &mut steps,
                budget,
                list.as_ptr(),
                list.len(),
                display.as_mut_ptr(),
                display.len(),
                virt.as_mut_ptr(),
                virt.len(),
            )
        };
        Answer::from_report(number, 0, steps)
    }
}
