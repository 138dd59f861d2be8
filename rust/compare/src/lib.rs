//! The proved engine and the independent reference, driven side by side over random sequences of calls. After each call
//! the answer, every word of the records and every byte of the memories must be equal; in honest sequences, which begin
//! with make and lend the right memories, the paper board of document 01 must agree too. So are the two conversions of list
//! files, over random files, and pictures, over random boards and headers.
#![deny(missing_docs)]

pub mod call;
pub mod choose;
pub mod compared;
pub mod difference;
pub mod feeds;
pub mod headers;
pub mod lists;
pub mod packing;
pub mod paper;
pub mod pictures;
pub mod random;
pub mod sequence;
pub mod sides;
pub mod spoil;
pub mod stipples;
pub mod tally;
pub mod tiles;
pub mod visits;
