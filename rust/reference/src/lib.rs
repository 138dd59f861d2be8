//! The drawing engine of document 01, with the requests of document 02 that are made,
//! written a second time from those documents alone, so that the proved engine can be
//! compared with it.
//!
//! It is written to be read against the document, not to be fast: whole numbers
//! are wide, each pixel of a line is worked out from its own number, those of a blit
//! are taken from all its pixels, and the comments quote the sentences that the code
//! follows.

pub mod blits;
pub mod calls;
pub mod drawing;
pub mod entries;
pub mod feeds;
pub mod packing;
pub mod paper;
pub mod pictures;
pub mod record;
pub mod sequence;
pub mod state;
pub mod text;
pub mod tiles;

pub use calls::{make, post, run, store, window_write, Report};
pub use feeds::{feed, Feed};
pub use packing::{pack, unpack, Conversion};
pub use paper::PaperBoard;
pub use pictures::{export, import};
pub use record::{Record, NAMES, WORDS};
pub use sequence::Sequence;
