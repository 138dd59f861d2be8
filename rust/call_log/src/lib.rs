//! A log of the calls made to a board: a text, a call a line, with its bytes and what it answered. `docs/LOG.md` has the
//! format.
//!
//! [`LoggedBoard`] takes the place of a [`Board`](pramolyt::Board) in a program and writes the log:
//!
//! ```
//! use call_log::{Log, LoggedBoard};
//! use pramolyt::Answer;
//!
//! # let file = Vec::new();
//! let (made, mut board) = LoggedBoard::make(Log::to(file), 8, 4, 1);
//! made.ok()?;
//! let mut list = [0; 5];
//! board.store(&mut list, 0, &[8, 0, 0, 0, 7]).ok()?; // store 0 0800000007 = 0
//! board.post(&list, 0, 1).ok()?; // post 0 1 = 0
//! assert_eq!(board.run(10, &list, &mut [0; 32], &mut [0; 32]), Answer::Done { steps: 1 }); // run 10 = 0 steps 1
//! # board.finish().expect("a Vec takes all");
//! # Ok::<(), Answer>(())
//! ```
//!
//! [`Reader`] reads it, and a [`Panel`] plays its calls.
#![deny(missing_docs)]

mod board;
mod call;
mod lines;
mod panel;
mod reader;

pub use board::{Log, LoggedBoard};
pub use call::{Call, Detail, Outcome};
pub use lines::{Fault, Lines, Trouble};
pub use panel::Panel;
pub use reader::{Line, Reader};
