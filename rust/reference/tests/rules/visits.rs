//! "Blits that mostly miss" (document 02, R-6).

use crate::common::*;
use reference::drawing::{point, Point};
use reference::Sequence;

/// On a board of 8 by 4, the display 0 to 31 and the virtual buffer 100 to 131.
fn painted() -> Sequence {
    let mut board = board(8, 4, 16);
    let bytes: Vec<u8> = (0..32).collect();
    let others: Vec<u8> = (100..132).collect();
    board.window_write(0, 0, &bytes);
    board.window_write(1, 0, &others);
    board
}

/// A blit: CMD, the corners of the clip, XY0, XY2, XY3 and XY1.
#[derive(Clone, Copy, Debug)]
struct Blit {
    command: u32,
    clip: ((i32, i32), (i32, i32)),
    from: (i32, i32),
    size: (i32, i32),
    direction: u32,
    to: (i32, i32),
}

/// Entries before the first visit of [`list`].
const ENTRIES: u64 = 9;

fn list(blit: &Blit) -> [(usize, u32); ENTRIES as usize] {
    let word = |(x, y)| xy(x, y);
    [
        (FORE, 77),
        (KEY, 105),
        (CMD, blit.command),
        (CLPTL, word(blit.clip.0)),
        (CLPBR, word(blit.clip.1)),
        (XY0, word(blit.from)),
        (XY2, word(blit.size)),
        (XY3, blit.direction),
        (XY1, word(blit.to)),
    ]
}

/// "BITBLT visits width x height pixels in rows": the offsets of all pixels, row by row.
fn offsets(blit: &Blit) -> Vec<(i32, i32)> {
    let sign = |bit: u32| if blit.direction & bit == bit { -1 } else { 1 };
    let (across, down) = (sign(2), sign(1));
    let row = |row| (0..blit.size.0).map(move |column| (across * column, down * row));
    (0..blit.size.1).flat_map(row).collect()
}

fn moved(a: (i32, i32), by: (i32, i32)) -> (i32, i32) {
    (a.0 + by.0, a.1 + by.1)
}

fn is_shown(blit: &Blit, offset: (i32, i32)) -> bool {
    let (x, y) = moved(blit.to, offset);
    let ((left, top), (right, bottom)) = blit.clip;
    let in_clip = left <= x && x <= right && top <= y && y <= bottom;
    (0..8).contains(&x) && (0..4).contains(&y) && (blit.command & CLIP == 0 || in_clip)
}

/// Blits of all directions and styles, with corners on the board, beside it and far off,
/// under clips of all kinds.
fn blits() -> Vec<Blit> {
    let whole = ((-9, -9), (99, 99));
    let placed = |direction, size, to| Blit {
        command: FILL,
        clip: whole,
        from: (1, 1),
        size,
        direction,
        to,
    };
    let mut places = Vec::new();
    for direction in 0..4 {
        for size in [(3, 2), (20, 9), (1, 30), (64, 1)] {
            for to in [(0, 0), (6, 2), (-2, 3), (9, -1), (12, 7), (-40, 1)] {
                places.push(placed(direction, size, to));
            }
        }
    }
    let mut blits = Vec::new();
    for (number, place) in places.into_iter().enumerate() {
        for (command, clip) in [
            (FILL, whole),
            (FILL | CLIP, ((2, 1), (5, 2))),
            (COPY | FROM_VIRTUAL, whole),
            (COPY | FROM_VIRTUAL | CLIP, ((3, -5), (3, 50))),
            (COPY | FROM_VIRTUAL | KEYED, whole),
            (COPY | CLIP, ((0, 3), (7, 3))),
            (COPY, whole),
            (COPY | STPL | FROM_VIRTUAL, whole),
            (COPY | STPL | TRNSP | CLIP, ((7, 0), (7, 0))),
            (FILL | CLIP, ((5, 2), (2, 1))),
            (COPY | CLIP, ((8, 0), (20, 20))),
        ] {
            let from = [(1, 1), (-3, 0), (7, 3), (40, 2)][number % 4];
            blits.push(Blit {
                command,
                clip,
                from,
                ..place
            });
        }
    }
    blits
}

/// "A blit is to visit only destination pixels inside the buffer and, with CLIP, inside
/// the clip, in the same order as before."
#[test]
fn only_pixels_inside_in_the_same_order() {
    for blit in blits() {
        let mut board = painted();
        draw(&mut board, &list(&blit));
        let shown = offsets(&blit).into_iter().filter(|&o| is_shown(&blit, o));
        let expected: Vec<Point> = shown.map(|(x, y)| point(xy(x, y))).collect();
        assert_eq!(*board.record.state().blit_visits(), expected, "{blit:?}");
    }
}

/// "One step is one entry fetched, or one pixel visited": a run by single steps changes
/// at each only the pixel that is next in that order.
#[test]
fn each_step_draws_its_pixel() {
    for blit in blits() {
        let mut board = painted();
        board.store(0, &entries(&list(&blit)));
        board.post(0, ENTRIES);
        assert_eq!(board.run(ENTRIES), steps(ENTRIES));
        for offset in offsets(&blit).into_iter().filter(|&o| is_shown(&blit, o)) {
            let mut before = board.display.clone();
            assert_eq!(board.run(1), steps(1));
            let (x, y) = moved(blit.to, offset);
            let at = (8 * y + x) as usize;
            before[at] = board.display[at];
            assert_eq!(board.display, before, "{blit:?}");
        }
        assert_eq!(board.run(1), steps(0));
        assert_eq!(board.fault(), None);
    }
}

/// "The picture after each whole list is to be proved unchanged": every pixel of the
/// blit, hidden ones too, drawn by a blit of its own, in the order of before.
#[test]
fn the_picture_is_that_of_all_visits() {
    for blit in blits() {
        let mut board = painted();
        draw(&mut board, &list(&blit));
        let mut one_by_one = painted();
        for offset in offsets(&blit) {
            let pixel = Blit {
                from: moved(blit.from, offset),
                to: moved(blit.to, offset),
                size: (1, 1),
                ..blit
            };
            draw(&mut one_by_one, &list(&pixel));
        }
        assert_eq!(board.display, one_by_one.display, "{blit:?}");
        assert_eq!(board.virt, one_by_one.virt, "{blit:?}");
    }
}

/// "No blit may take more pixel steps than width times height of the board."
#[test]
fn no_more_steps_than_the_board_has_pixels() {
    for (direction, to, visits) in [
        (0, (-5, -5), 32),
        (0, (0, 0), 32),
        (0, (7, 3), 1),
        (1, (0, 3), 32),
        (1, (0, 0), 8),
        (2, (7, 0), 32),
        (2, (0, 0), 4),
        (3, (2_000, 2_000), 32),
        (3, (2_047, 2_050), 8),
        (3, (2_048, 2_047), 28),
        (3, (2_055, 2_047), 0),
    ] {
        let blit = Blit {
            command: FILL,
            clip: ((0, 0), (0, 0)),
            from: (0, 0),
            size: (2_048, 2_048),
            direction,
            to,
        };
        let mut board = painted();
        assert_eq!(draw(&mut board, &list(&blit)), ENTRIES + visits, "{to:?}");
        let drawn = board.display.iter().filter(|&&pixel| pixel == 77).count();
        assert_eq!(drawn as u64, visits, "{to:?}");
    }
}

/// A pixel whose source lies outside, or is KEY, or is a transparent 0, is visited, and so
/// is one that the raster code or the mask leaves as it is.
#[test]
fn pixels_that_are_not_drawn_are_visited() {
    let from_virtual = COPY | FROM_VIRTUAL;
    for (command, mask, from) in [
        (from_virtual, 255, (40, 2)),
        (from_virtual | KEYED, 255, (5, 0)),
        (from_virtual | STPL, 255, (-9, 0)),
        (from_virtual | STPL | TRNSP, 255, (7, 0)),
        (FILL, 0, (0, 0)),
        (0x1580_0000, 255, (0, 0)),
    ] {
        let mut board = painted();
        let list = [
            (FORE, 77),
            (KEY, 105),
            (MASK, mask),
            (CMD, command),
            (XY0, xy(from.0, from.1)),
            (XY2, xy(1, 1)),
            (XY1, xy(3, 3)),
        ];
        assert_eq!(draw(&mut board, &list), 7 + 1, "{command:#x}");
        assert_eq!(board.display, painted().display, "{command:#x}");
    }
}

/// A blit with nothing inside ends at its trigger and sets the last point there; a list
/// may end with it, and the next entry comes in the next step.
#[test]
fn nothing_inside() {
    let hidden = [(CMD, FILL), (XY2, xy(5, 5)), (XY1, xy(8, 0))];
    let mut board = painted();
    board.store(0, &entries(&hidden));
    board.post(0, 3);
    assert_eq!(board.run(2), steps(2));
    assert_eq!((board.record.active_taken, board.record.last), (1, 0));
    assert_eq!(board.run(9), steps(1));
    assert_eq!(
        (board.record.active_taken, board.record.last),
        (0, xy(8, 0))
    );
    assert_eq!(board.record.under_way, 0);
    let line = [(CMD, SOLID_PLINE), (XY1, xy(8, 2))];
    assert_eq!(draw(&mut board, &line), 2 + 3);
    assert_eq!(board.fault(), None);
}

/// "Lines keep theirs."
#[test]
fn lines_keep_their_steps() {
    for (command, to) in [(SOLID_LINE, (-9, -3)), (DASHED_LINE | CLIP, (-5, 11))] {
        let mut board = painted();
        let list = [
            (CLPTL, xy(3, 3)),
            (CLPBR, xy(1, 1)),
            (CMD, command),
            (XY0, xy(-2, -2)),
            (XY1, xy(to.0, to.1)),
        ];
        let length = (to.0 + 2).abs().max((to.1 + 2).abs()) as u64;
        assert_eq!(draw(&mut board, &list), 5 + length + 1);
    }
}
