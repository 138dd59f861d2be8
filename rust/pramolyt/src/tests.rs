use std::string::ToString;

use crate::{Answer, Board, DISPLAY, VIRTUAL, WORDS};

const DONE: Answer = Answer::Done { steps: 0 };
/// FORE 7; CMD a solid LINE, raster code copy; XY0 (0, 0); XY1 (4, 2).
const LINE: [u8; 20] = [
    8, 0, 0, 0, 7, 0, 0x23, 0x80, 0, 0, 0x48, 0, 0, 0, 0, 0x60, 0, 4, 0, 2,
];
/// Register 13, which there is not.
const ILLEGAL: [u8; 5] = [0x68, 0, 0, 0, 0];

/// An 8 by 4 board with 8 entries, the line at the front of list memory.
struct Bench {
    board: Board,
    list: [u8; 40],
    display: [u8; 32],
    virt: [u8; 32],
}

impl Bench {
    fn new() -> Bench {
        let (answer, board) = Board::make(8, 4, 8);
        assert_eq!(answer, DONE);
        let mut bench = Bench {
            board,
            list: [0; 40],
            display: [0; 32],
            virt: [0; 32],
        };
        assert_eq!(bench.store(0, &LINE), DONE);
        bench
    }

    fn post(&mut self, start: usize, count: usize) -> Answer {
        self.board.post(&self.list, start, count)
    }

    fn store(&mut self, first: usize, bytes: &[u8]) -> Answer {
        self.board.store(&mut self.list, first, bytes)
    }

    fn run(&mut self, budget: u64) -> Answer {
        self.board
            .run(budget, &self.list, &mut self.display, &mut self.virt)
    }
}

#[test]
fn a_line_is_drawn() {
    let mut bench = Bench::new();
    assert_eq!(bench.post(0, 4), DONE);
    assert!(!bench.board.is_idle());
    assert_eq!(bench.run(1000), Answer::Done { steps: 9 });
    assert!(bench.board.is_idle());
    assert_eq!(bench.display[..8], [7, 7, 0, 0, 0, 0, 0, 0]);
    assert_eq!(bench.display[8..16], [0, 0, 7, 7, 0, 0, 0, 0]);
    assert_eq!(bench.display[16..24], [0, 0, 0, 0, 7, 0, 0, 0]);
}

#[test]
fn slots_and_entries_are_held() {
    let mut bench = Bench::new();
    assert_eq!(bench.post(0, 4), DONE);
    assert_eq!(bench.post(0, 4), DONE);
    assert_eq!(bench.post(0, 4), Answer::SlotsFull);
    assert_eq!(bench.store(3, &LINE), Answer::EntryHeld);
    assert_eq!(bench.store(4, &LINE), DONE);
}

#[test]
fn sizes() {
    let (answer, board) = Board::make(8, 4, 16);
    assert_eq!(
        (answer, board.width(), board.height(), board.entries()),
        (DONE, 8, 4, 16)
    );
    for (width, height, entries) in [(0, 4, 8), (2049, 4, 8), (8, 4, 4097), (usize::MAX, 4, 8)] {
        let (answer, board) = Board::make(width, height, entries);
        assert_eq!(answer, Answer::WrongSize);
        assert_eq!(board, Board::make(1, 1, 1).1);
    }
}

#[test]
fn a_malformed_record_is_refused() {
    for word in [0, u32::MAX] {
        let mut board = Board::from_words([word; WORDS]);
        assert_eq!(board.post(&[], 0, 1), Answer::Malformed);
        assert_eq!(board.store(&mut [], 0, &[]), Answer::Malformed);
        assert_eq!(
            board.window_write(DISPLAY, 0, &[], &mut []),
            Answer::Malformed
        );
        assert_eq!(board.run(1, &[], &mut [], &mut []), Answer::Malformed);
        assert_eq!(board.words(), [word; WORDS]);
    }
}

#[test]
fn wrong_sizes_are_refused() {
    let mut bench = Bench::new();
    assert_eq!(bench.board.post(&bench.list[1..], 0, 4), Answer::WrongSize);
    assert_eq!(bench.store(0, &LINE[1..]), Answer::WrongSize);
    assert_eq!(
        bench.board.window_write(2, 0, &[], &mut bench.display),
        Answer::WrongSize
    );
    assert_eq!(
        bench.board.run(1, &bench.list, &mut bench.display, &mut []),
        Answer::WrongSize
    );
}

#[test]
fn spans_are_checked() {
    let mut bench = Bench::new();
    assert_eq!(bench.post(usize::MAX, 0), Answer::NoEntries);
    assert_eq!(bench.post(usize::MAX, 2), Answer::PastTheEnd);
    assert_eq!(bench.store(8, &LINE), Answer::PastTheEnd);
    assert_eq!(
        bench
            .board
            .window_write(VIRTUAL, 31, &[1, 2], &mut bench.virt),
        Answer::PastTheEnd
    );
}

#[test]
fn an_illegal_entry_is_told_by_its_place() {
    let mut bench = Bench::new();
    assert_eq!(bench.store(6, &ILLEGAL), DONE);
    assert_eq!(bench.post(2, 6), Answer::IllegalEntry { place: 6 });
}

#[test]
fn a_window_write_needs_an_idle_board() {
    let mut bench = Bench::new();
    assert_eq!(
        bench
            .board
            .window_write(VIRTUAL, 30, &[5, 6], &mut bench.virt),
        DONE
    );
    assert_eq!(bench.virt[29..], [0, 5, 6]);
    assert_eq!(bench.post(0, 4), DONE);
    assert_eq!(
        bench.board.window_write(VIRTUAL, 0, &[5], &mut bench.virt),
        Answer::Busy
    );
}

#[test]
fn a_list_changed_since_its_post_stops_the_run_until_it_is_mended() {
    let mut bench = Bench::new();
    assert_eq!(bench.post(0, 4), DONE);
    bench.list[10..15].copy_from_slice(&ILLEGAL);
    assert_eq!(bench.run(2), Answer::Done { steps: 2 });
    assert_eq!(bench.run(100), Answer::IllegalFetch { steps: 0 });
    assert_eq!(bench.board.next_entry(), 2);
    assert_eq!(bench.store(2, &LINE[10..15]), Answer::EntryHeld);
    bench.list[10..15].copy_from_slice(&LINE[10..15]);
    assert_eq!(bench.run(100), Answer::Done { steps: 7 });
}

#[test]
fn a_tile_is_held_while_its_fill_is_under_way() {
    let (answer, mut board) = Board::make(16, 8, 3);
    assert_eq!(answer, DONE);
    // CMD a BITBLT with APAT from the virtual buffer, raster code copy; XY2 16 by 8; XY1 (0, 0).
    let list = [0, 0x13, 1, 0x40, 0, 0x50, 0, 16, 0, 8, 0x60, 0, 0, 0, 0];
    let (mut display, mut virt) = ([0; 128], [5; 128]);
    assert_eq!(board.post(&list, 0, 3), DONE);
    // While the record holds the tile, the tile's place in the buffer has other pixels.
    let mut run = |board: &mut Board, budget| {
        let steps = board.run(budget, &list, &mut display, &mut virt).steps();
        virt.fill(if board.holds_tile() { 6 } else { 5 });
        (steps, board.holds_tile())
    };
    assert_eq!(run(&mut board, 2), (2, false));
    assert_eq!(run(&mut board, 1), (1, true));
    assert_eq!(run(&mut board, 127), (127, true));
    assert_eq!(
        board.words()[28..],
        [[1].as_slice(), &[0x0505_0505; 32]].concat()
    );
    assert_eq!(run(&mut board, 2), (1, false));
    assert_eq!(board.words()[28..], [0; 33]);
    assert_eq!(display, [5; 128]);
}

#[test]
fn answers_are_told_in_words() {
    assert_eq!(Answer::Done { steps: 9 }.to_string(), "done, 9 steps");
    assert_eq!(
        Answer::IllegalEntry { place: 6 }.to_string(),
        "entry 6 is illegal; the list was not posted"
    );
    assert_eq!(Answer::Done { steps: 9 }.ok(), Ok(9));
    assert_eq!(Answer::EntryHeld.ok(), Err(Answer::EntryHeld));
}
