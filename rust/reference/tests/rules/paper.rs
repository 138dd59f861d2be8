//! "The paper board of demand 3", fed by hand also with what no board would answer.

use crate::common::*;
use reference::PaperBoard;

fn paper() -> PaperBoard {
    let list = [example(), vec![0; 60]].concat();
    PaperBoard::new(8, 4, list, vec![0; 32], vec![0; 32])
}

#[test]
fn lists_are_copied_when_posted() {
    let mut paper = paper();
    paper.post(0, 4, true);
    paper.store(0, &[0xFF; 80], true);
    assert_eq!(paper.list(), [0xFF; 80]);
    assert_eq!((paper.steps_to_empty(), paper.run(9)), (9, 9));
    assert_eq!(paper.display()[..3], [7, 7, 0]);
}

/// A window write waits behind a list and is done in the step that ends the list.
#[test]
fn window_writes_wait_behind_lists() {
    let mut paper = paper();
    paper.window_write(1, 30, &[1, 2], true);
    assert_eq!(paper.virt()[30..], [1, 2]);
    paper.post(0, 4, true);
    paper.window_write(0, 0, &[5], true);
    paper.post(3, 1, true);
    assert_eq!(paper.lists(), [(0, 4), (3, 1)]);
    for (steps, left, lists, pixel) in [(8, 7, 2, 7), (1, 6, 1, 5), (2, 4, 1, 7), (4, 0, 0, 7)] {
        assert_eq!(paper.run(steps), steps);
        let state = (
            paper.steps_to_empty(),
            paper.lists().len(),
            paper.display()[0],
        );
        assert_eq!(state, (left, lists, pixel));
    }
    assert_eq!(paper.run(u64::MAX), 0);
}

#[test]
fn refused_calls_change_nothing() {
    let mut paper = paper();
    paper.post(0, 4, false);
    paper.store(0, &[1; 5], false);
    paper.window_write(0, 0, &[1], false);
    assert_eq!((paper.lists(), paper.steps_to_empty()), (vec![], 0));
    assert_eq!(paper.list()[..20], example());
    assert_eq!(paper.display(), [0; 32]);
    let registers = paper.registers();
    assert_eq!((registers[MASK], registers.iter().sum()), (255, 255));
}

/// Calls that no board answers with 0: the steps run out and nothing panics.
#[test]
fn impossible_answers() {
    for (start, count, taken) in [(0, 0, 0), (15, 9, 1), (u64::MAX, u64::MAX, 0)] {
        let mut paper = paper();
        paper.store(u64::MAX, &[1; 9], true);
        paper.window_write(u64::MAX, 0, &[1], true);
        paper.window_write(0, u64::MAX, &[1], true);
        paper.post(start, count, true);
        assert_eq!(paper.run(u64::MAX), taken);
    }
}
