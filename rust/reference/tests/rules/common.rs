//! Short ways to write lists, and boards that are checked against the paper board.

pub use reference::entries::register::*;
use reference::{Record, Report, Sequence};

/// The line command of the program's example, and other whole words of CMD.
pub const SOLID_LINE: u32 = 0x2380_0000;
pub const DASHED_LINE: u32 = 0x2320_0000;
pub const SOLID_PLINE: u32 = 0x5380_0000;
pub const FILL: u32 = 0x1380_0000;
pub const COPY: u32 = 0x1300_0000;
pub const TRNSP: u32 = 1 << 22;
pub const STPL: u32 = 1 << 21;
pub const KEYED: u32 = 1 << 20;
pub const NLST: u32 = 1 << 19;
pub const PRST: u32 = 1 << 18;
pub const CLIP: u32 = 1 << 17;
pub const FROM_VIRTUAL: u32 = 1 << 16;
pub const TO_VIRTUAL: u32 = 1 << 15;
pub const APAT: u32 = 1 << 14;

/// A word of two halves, x or width high.
pub fn xy(x: i32, y: i32) -> u32 {
    (x as u16 as u32) << 16 | y as u16 as u32
}

pub fn entry(register: usize, data: u32) -> [u8; 5] {
    let [a, b, c, d] = data.to_be_bytes();
    [(register as u8) << 3, a, b, c, d]
}

pub fn entries(list: &[(usize, u32)]) -> Vec<u8> {
    let entry = |&(register, data): &(usize, u32)| entry(register, data);
    list.iter().flat_map(entry).collect()
}

/// The list of the program's example: a line of 5 pixels, 9 steps.
pub fn example() -> Vec<u8> {
    entries(&[(FORE, 7), (CMD, SOLID_LINE), (XY0, 0), (XY1, xy(4, 2))])
}

pub fn board(width: u64, height: u64, entries: u64) -> Sequence {
    let (report, board) = Sequence::make(width, height, entries);
    assert_eq!(report, plain(0));
    board
}

pub fn plain(number: u32) -> Report {
    Report::plain(number)
}

pub fn steps(steps: u64) -> Report {
    Report { steps, ..plain(0) }
}

/// Stores the list at entry 0, posts it and runs it to its end; the steps.
pub fn draw(board: &mut Sequence, list: &[(usize, u32)]) -> u64 {
    assert_eq!(board.store(0, &entries(list)), plain(0));
    assert_eq!(board.post(0, list.len() as u64), plain(0));
    let report = board.run(u64::MAX);
    assert_eq!(report.number, 0);
    assert_eq!(board.fault(), None);
    report.steps
}

/// A board of 8 by 4 that holds the example as its only list.
pub fn busy() -> (Record, Vec<u8>) {
    let mut board = board(8, 4, 16);
    board.store(0, &example());
    assert_eq!(board.post(0, 4), plain(0));
    (board.record, board.list)
}

/// Whether a post accepts this entry.
pub fn legal(register: usize, data: u32) -> bool {
    let (_, mut record) = reference::make(1, 1, 1);
    reference::post(&mut record, &entry(register, data), 0, 1) == plain(0)
}
