//! "What the host hears": the grounds of each call and their order.

use crate::common::*;
use reference::{make, post, run, store, window_write, Record, Report, WORDS};

const HUGE: u64 = u64::MAX;

#[test]
fn make_sizes() {
    for (width, height, entries, number) in [
        (1, 1, 1, 0),
        (2_048, 2_048, 4_096, 0),
        (0, 1, 1, 2),
        (2_049, 1, 1, 2),
        (1, 0, 1, 2),
        (1, 2_049, 1, 2),
        (1, 1, 0, 2),
        (1, 1, 4_097, 2),
        (1 << 32 | 8, 4, 16, 2),
        (HUGE, HUGE, HUGE, 2),
    ] {
        let (report, record) = make(width, height, entries);
        assert_eq!(report, plain(number));
        let [w, h, e] = if number == 0 {
            [width as u32, height as u32, entries as u32]
        } else {
            [1, 1, 1]
        };
        let mut fresh = [0; WORDS];
        (fresh[0], fresh[1], fresh[2], fresh[15]) = (w, h, e, 255);
        assert_eq!(record.words(), fresh);
    }
}

/// Posts on a board of 16 entries with none, one or both slots taken, the memory
/// legal but for entries 9 and 11.
#[test]
fn post_grounds() {
    let mut list = vec![0; 80];
    (list[9 * 5], list[11 * 5]) = (1, 13 << 3);
    for (taken, bytes, start, count, number, place) in [
        (0, 80, 0, 1, 0, 0),
        (1, 80, 0, 1, 0, 0),
        (0, 80, 12, 4, 0, 0),
        (0, 79, HUGE, 0, 2, 0),
        (0, 85, 0, 1, 2, 0),
        (0, 80, HUGE, 0, 3, 0),
        (2, 80, 20, 0, 3, 0),
        (2, 80, 16, 1, 4, 0),
        (0, 80, 12, 5, 4, 0),
        (0, 80, HUGE, HUGE, 4, 0),
        (0, 80, 1, HUGE, 4, 0),
        (2, 80, 0, 1, 5, 0),
        (2, 80, 9, 1, 5, 0),
        (1, 80, 8, 8, 6, 9),
        (0, 80, 10, 6, 6, 11),
        (0, 80, 0, 16, 6, 9),
    ] {
        let mut record = make(8, 4, 16).1;
        for _ in 0..taken {
            assert_eq!(post(&mut record, &list, 2, 3), plain(0));
        }
        let before = record;
        list.resize(bytes, 0);
        let report = post(&mut record, &list, start, count);
        list.resize(80, 0);
        assert_eq!(
            report,
            Report {
                place,
                ..plain(number)
            }
        );
        assert_eq!(number == 0, record != before, "a refusal keeps the record");
    }
}

#[test]
fn post_takes_active_then_pending() {
    let (mut record, list) = busy();
    let slots = |record: &Record| (record.taken_spans(), record.next);
    assert_eq!(slots(&record), (vec![(0, 4)], 0));
    assert_eq!(post(&mut record, &list, 1, 2), plain(0));
    assert_eq!(slots(&record), (vec![(0, 4), (1, 2)], 0));
}

/// Stores on a board of 16 entries that holds entries 2 to 4 and 8 to 9.
#[test]
fn store_grounds() {
    for (size, first, bytes, number) in [
        (80, 0, 10, 0),
        (80, 5, 15, 0),
        (80, 10, 30, 0),
        (80, 3, 0, 0),
        (80, 16, 0, 0),
        (80, 17, 0, 4),
        (80, HUGE, 0, 4),
        (80, HUGE, 5, 4),
        (80, 16, 5, 4),
        (79, 0, 5, 2),
        (75, 20, 5, 2),
        (80, 20, 4, 2),
        (80, 3, 6, 2),
        (80, 0, 15, 8),
        (80, 4, 5, 8),
        (80, 9, 5, 8),
        (80, 0, 80, 8),
        (80, 8, 45, 4),
    ] {
        let mut list = vec![0; 80];
        let mut record = make(8, 4, 16).1;
        post(&mut record, &list, 2, 3);
        post(&mut record, &list, 8, 2);
        list.resize(size, 0);
        let (before, mut expected) = (record, list.clone());
        let report = store(&mut record, &mut list, first, &vec![0xAB; bytes]);
        assert_eq!(report, plain(number), "{size} {first} {bytes}");
        if number == 0 && bytes > 0 {
            expected[5 * first as usize..][..bytes].fill(0xAB);
        }
        assert_eq!((record, list), (before, expected));
    }
}

/// Window writes on a board of 32 pixels, idle or busy.
#[test]
fn window_write_grounds() {
    for (busy_board, number, offset, bytes, size, answer) in [
        (false, 0, 0, 32, 32, 0),
        (false, 1, 31, 1, 32, 0),
        (false, 1, 32, 0, 32, 0),
        (false, 2, 0, 1, 32, 2),
        (false, HUGE, 0, 0, 32, 2),
        (false, 0, 0, 1, 31, 2),
        (true, 0, 40, 1, 33, 2),
        (false, 0, 31, 2, 32, 4),
        (false, 0, HUGE, 2, 32, 4),
        (false, 0, 33, 0, 32, 4),
        (true, 0, 33, 0, 32, 4),
        (true, 0, 32, 0, 32, 7),
        (true, 1, 0, 1, 32, 7),
    ] {
        let mut record = if busy_board {
            busy().0
        } else {
            make(8, 4, 16).1
        };
        let mut buffer = vec![1; size];
        let (before, mut expected) = (record, buffer.clone());
        let report = window_write(&mut record, number, offset, &vec![7; bytes], &mut buffer);
        assert_eq!(report, plain(answer));
        if answer == 0 && bytes > 0 {
            expected[offset as usize..][..bytes].fill(7);
        }
        assert_eq!((record, buffer), (before, expected));
    }
}

#[test]
fn run_needs_all_three_memories() {
    for (list, display, virt, number) in [
        (80, 32, 32, 0),
        (79, 32, 32, 2),
        (80, 31, 32, 2),
        (80, 32, 33, 2),
        (0, 0, 0, 2),
    ] {
        let mut record = make(8, 4, 16).1;
        let before = record;
        let (mut display, mut virt) = (vec![5; display], vec![5; virt]);
        let report = run(&mut record, HUGE, &vec![0; list], &mut display, &mut virt);
        assert_eq!((report, record), (plain(number), before));
    }
}

/// The example with its third entry made illegal after the post: two steps stand
/// before it.
#[test]
fn run_meets_an_illegal_entry() {
    for (budget, number, done) in [(0, 0, 0), (1, 0, 1), (2, 0, 2), (3, 9, 2), (HUGE, 9, 2)] {
        let (mut record, mut list) = busy();
        list[2 * 5] |= 1;
        let (mut display, mut virt) = ([0; 32], [0; 32]);
        let report = run(&mut record, budget, &list, &mut display, &mut virt);
        let expected = Report {
            steps: done,
            ..plain(number)
        };
        assert_eq!(report, expected);
        assert_eq!((record.next, record.active_taken), (done as u32, 1));
        assert_eq!(display, [0; 32]);
        if number == 9 {
            let stands = record;
            assert_eq!((record.fore, record.cmd), (7, SOLID_LINE));
            let again = run(&mut record, 1, &list, &mut display, &mut virt);
            assert_eq!(
                again,
                Report {
                    steps: 0,
                    ..expected
                }
            );
            assert_eq!(record, stands);
        }
    }
}

/// The illegal entry may come in what was the pending list.
#[test]
fn run_meets_an_illegal_entry_in_the_pending_list() {
    let (mut record, mut list) = busy();
    assert_eq!(post(&mut record, &list, 8, 2), plain(0));
    list[8 * 5] = 0xFF;
    let (mut display, mut virt) = ([0; 32], [0; 32]);
    for (number, done) in [(9, 9), (9, 0)] {
        let report = run(&mut record, HUGE, &list, &mut display, &mut virt);
        assert_eq!(
            report,
            Report {
                steps: done,
                ..plain(number)
            }
        );
        assert_eq!((record.taken_spans(), record.next), (vec![(8, 2)], 8));
    }
    assert_eq!(display[..2], [7, 7]);
}

/// A list's end, the pending list's start and the change of the next entry belong to
/// the ending step.
#[test]
fn lists_end_in_their_last_step() {
    let mut board = board(8, 4, 16);
    board.store(0, &example());
    board.store(6, &entries(&[(FORE, 3), (XY1, xy(0, 0))]));
    board.post(0, 4);
    board.post(6, 2);
    let rows = [
        (4, vec![(0, 4), (6, 2)], 4, 1, 0),
        (4, vec![(0, 4), (6, 2)], 4, 1, 4),
        (1, vec![(6, 2)], 6, 0, 0),
        (2, vec![(6, 2)], 8, 1, 0),
        (1, vec![], 0, 0, 0),
        (0, vec![], 0, 0, 0),
    ];
    for (done, spans, next, under_way, visited) in rows {
        assert_eq!(board.run(done), steps(done));
        let record = &board.record;
        assert_eq!(record.taken_spans(), spans);
        let place = (record.next, record.under_way, record.visited);
        assert_eq!(place, (next, under_way, visited));
    }
    assert_eq!(board.run(1), steps(0));
    assert_eq!(board.fault(), None);
}

/// An entry is free only when neither slot has it, fetched or not.
#[test]
fn held_entries() {
    let mut board = board(8, 4, 16);
    board.post(0, 4);
    board.post(2, 4);
    board.run(3);
    let free = |board: &mut reference::Sequence| -> Vec<u64> {
        (0..8)
            .filter(|&place| board.store(place, &[0; 5]).number == 0)
            .collect()
    };
    assert_eq!(free(&mut board), [6, 7]);
    assert_eq!(board.run(1), steps(1));
    assert_eq!(free(&mut board), [0, 1, 6, 7]);
    assert_eq!(board.run(9), steps(4));
    assert_eq!(free(&mut board), [0, 1, 2, 3, 4, 5, 6, 7]);
    assert_eq!(board.fault(), None);
}
