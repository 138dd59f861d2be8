//! "Entry layout" and "Pixels".

use crate::common::*;
use reference::drawing::{line_length, line_pixel, point, raster, Point};
use reference::Sequence;

type List = [(usize, u32)];

/// The pixels of the display that are 1.
fn lit(board: &Sequence) -> Vec<usize> {
    let at = 0..board.display.len();
    at.filter(|&at| board.display[at] == 1).collect()
}

/// The X codes by name: 0 clear, 1 and, 3 copy, 6 xor, 7 or and so on.
#[test]
fn raster_codes() {
    let codes: [fn(u8, u8) -> u8; 16] = [
        |_, _| 0,
        |s, d| s & d,
        |s, d| s & !d,
        |s, _| s,
        |s, d| !s & d,
        |_, d| d,
        |s, d| s ^ d,
        |s, d| s | d,
        |s, d| !(s | d),
        |s, d| !(s ^ d),
        |_, d| !d,
        |s, d| s | !d,
        |s, _| !s,
        |s, d| !s | d,
        |s, d| !(s & d),
        |_, _| 0xFF,
    ];
    for (code, function) in codes.iter().enumerate() {
        for (s, d) in [(0x0F, 0x33), (0x55, 0xAA), (0, 0xFF), (0xC1, 0x1C)] {
            for mask in [0xFF, 0, 0x0F, 0x81] {
                let new = function(s, d) & mask | d & !mask;
                assert_eq!(raster(code as u32, mask, s, d), new);
            }
        }
    }
}

/// A register, a word and whether the word is legal there.
const WORDS: [(usize, u32, bool); 45] = [
    (CMD, 0, true),
    (CMD, 1 << 24, false),
    (CMD, 1 << 15, false),
    (CMD, APAT, false),
    (CMD, 1, false),
    (CMD, FILL, true),
    (CMD, FILL | TRNSP, true),
    (CMD, FILL | FROM_VIRTUAL | TO_VIRTUAL | CLIP, true),
    (CMD, FILL | KEYED, false),
    (CMD, COPY | KEYED, true),
    (CMD, COPY | TRNSP, false),
    (CMD, COPY | STPL, true),
    (CMD, COPY | NLST, false),
    (CMD, COPY | PRST, false),
    (CMD, COPY | APAT, true),
    (CMD, COPY | APAT | KEYED, false),
    (CMD, COPY | 1 << 13, false),
    (CMD, FILL | APAT, false),
    (
        CMD,
        SOLID_LINE | TRNSP | NLST | PRST | CLIP | TO_VIRTUAL,
        true,
    ),
    (CMD, SOLID_LINE | STPL, true),
    (CMD, SOLID_LINE | KEYED, false),
    (CMD, SOLID_LINE | FROM_VIRTUAL, false),
    (CMD, SOLID_LINE | 1, false),
    (CMD, SOLID_LINE | APAT, false),
    (CMD, DASHED_LINE, true),
    (CMD, 0x2300_0000, false),
    (CMD, 0x5F20_0000, true),
    (CMD, 0x5300_0000 | TRNSP, false),
    (CMD, 0x3380_0000, false),
    (CMD, 0x6380_0000, false),
    (CMD, 0xF380_0000, false),
    (FORE, 255, true),
    (BACK, 256, false),
    (MASK, 0, true),
    (KEY, u32::MAX, false),
    (LPAT, u32::MAX, true),
    (PCTRL, 0xFFE0 & !0x1F00, true),
    (PCTRL, 0x1_0000, false),
    (CLPTL, u32::MAX, true),
    (CLPBR, 0x8000_8000, true),
    (XY0, u32::MAX, true),
    (XY2, 0x0000_0801, false),
    (XY3, 3, true),
    (XY3, 4, false),
    (13, 0, false),
];

#[test]
fn legal_words() {
    for (register, data, expected) in WORDS {
        assert_eq!(legal(register, data), expected, "{register} {data:#x}");
    }
    assert!((13..32).all(|register| !legal(register, 0)));
}

/// v satisfies -n <= 2(nv - E) < n at every pixel, from A to B and from B to A, and
/// both ways give the same pixels.
#[test]
fn minor_coordinates() {
    let ends = [-32_768, -7, -2, 0, 1, 3, 5, 32_767];
    let words = ends.iter().flat_map(|&x| ends.map(|y| xy(x, y)));
    let points: Vec<Point> = words.map(point).collect();
    for &a in &points {
        for &b in &points {
            let n = line_length(a, b);
            let x_major = (b.x - a.x).abs() >= (b.y - a.y).abs();
            for i in (0..=n).step_by(1 + n as usize / 16) {
                let p = line_pixel(a, b, i);
                assert_eq!(p, line_pixel(b, a, n - i));
                let (major, from, minor, start, difference) = if x_major {
                    (p.x - a.x, b.x - a.x, p.y, a.y, b.y - a.y)
                } else {
                    (p.y - a.y, b.y - a.y, p.x, a.x, b.x - a.x)
                };
                assert_eq!(major, i * from.signum());
                let twice = 2 * (n * minor - (n * start + i * difference));
                assert!(n == 0 && minor == start || -n <= twice && twice < n);
            }
        }
    }
}

/// A half goes to the smaller coordinate: up, down, left and right.
#[test]
fn halves() {
    for (end, middle) in [
        ((2, 1), (1, 0)),
        ((2, -1), (1, -1)),
        ((-2, 1), (-1, 0)),
        ((-2, -1), (-1, -1)),
        ((1, 2), (0, 1)),
        ((-1, 2), (-1, 1)),
        ((1, -2), (0, -1)),
        ((-1, -2), (-1, -1)),
    ] {
        let (a, b) = (point(0), point(xy(end.0, end.1)));
        let middle = point(xy(middle.0, middle.1));
        assert_eq!(line_pixel(a, b, 1), middle);
        assert_eq!(line_pixel(b, a, 1), middle);
    }
}

/// The longest lines, whose hidden pixels are steps too, and the blits farthest off the
/// board, which visit none: no sum wraps.
#[test]
fn far_coordinates() {
    let mut board = board(4, 4, 8);
    let diagonal = [
        (FORE, 1),
        (CMD, SOLID_LINE),
        (XY0, xy(-32_768, -32_768)),
        (XY1, xy(32_767, 32_767)),
    ];
    assert_eq!(draw(&mut board, &diagonal), 4 + 65_536);
    let lit =
        |board: &Sequence| -> Vec<usize> { (0..16).filter(|&at| board.display[at] == 1).collect() };
    assert_eq!(lit(&board), [0, 5, 10, 15]);
    for (direction, corner) in [(0, xy(32_767, 32_767)), (3, xy(-32_768, -32_768))] {
        let fill = [
            (CMD, FILL),
            (XY2, xy(2_048, 2)),
            (XY3, direction),
            (XY1, corner),
        ];
        assert_eq!(draw(&mut board, &fill), 4);
        assert_eq!(lit(&board), [0, 5, 10, 15]);
    }
}

/// Fills of 3 by 2 from the corner (4,2): XY3 bit 0 goes up, bit 1 left; XY2's width
/// is its high half; visits go along rows.
#[test]
fn blit_directions() {
    for (direction, first, last) in [
        (0, [(4, 2), (5, 2), (6, 2)], (6, 3)),
        (1, [(4, 2), (5, 2), (6, 2)], (6, 1)),
        (2, [(4, 2), (3, 2), (2, 2)], (2, 3)),
        (3, [(4, 2), (3, 2), (2, 2)], (2, 1)),
    ] {
        let mut board = board(8, 4, 8);
        let list = [
            (FORE, 1),
            (CMD, FILL),
            (XY2, xy(3, 2)),
            (XY3, direction),
            (XY1, xy(4, 2)),
        ];
        board.store(0, &entries(&list));
        board.post(0, 5);
        assert_eq!(board.run(5), steps(5));
        for (x, y) in first {
            assert_eq!(board.run(1), steps(1));
            assert_eq!(board.display[8 * y + x], 1);
        }
        assert_eq!(board.run(2), steps(2));
        assert_eq!(board.display[8 * last.1 + last.0], 0);
        assert_eq!(board.run(9), steps(1));
        assert_eq!(board.display[8 * last.1 + last.0], 1);
    }
}

/// One row of a copy from the virtual buffer, which holds 1 2 3 4.
#[test]
fn blit_sources() {
    let code = |code: u32| 0x1000_0000 | code << 24;
    let rows = [
        ("copy", COPY | FROM_VIRTUAL, 0, [1, 2, 3, 4]),
        ("key", COPY | FROM_VIRTUAL | KEYED, 0, [1, 9, 3, 4]),
        (
            "key before raster",
            code(12) | FROM_VIRTUAL | KEYED,
            0,
            [!1, 9, !3, !4],
        ),
        ("outside", COPY | FROM_VIRTUAL, 2, [3, 4, 9, 9]),
        ("outside, set", code(15) | FROM_VIRTUAL, 2, [255, 255, 9, 9]),
        ("outside, clear", code(0) | FROM_VIRTUAL, 2, [0, 0, 9, 9]),
        (
            "outside, invert",
            code(10) | FROM_VIRTUAL,
            -1,
            [9, !9, !9, !9],
        ),
        ("solid", FILL | FROM_VIRTUAL | TRNSP, 99, [7, 7, 7, 7]),
    ];
    for (name, command, from, row) in rows {
        let mut board = board(4, 1, 8);
        board.window_write(0, 0, &[9; 4]);
        board.window_write(1, 0, &[1, 2, 3, 4]);
        let list = [
            (FORE, 7),
            (KEY, 2),
            (CMD, command),
            (XY0, xy(from, 0)),
            (XY2, xy(4, 1)),
            (XY1, 0),
        ];
        assert_eq!(draw(&mut board, &list), 10);
        assert_eq!(board.display, row, "{name}");
        assert_eq!(board.virt, [1, 2, 3, 4]);
    }
}

/// Fills of the whole 4 by 4 board: what the clip lets through, both corners inside, is
/// visited and drawn.
#[test]
fn clip_rectangles() {
    for (flags, top_left, bottom_right, drawn) in [
        (CLIP, (1, 1), (2, 2), vec![5, 6, 9, 10]),
        (CLIP, (3, 2), (3, 2), vec![11]),
        (CLIP, (-5, -5), (0, 0), vec![0]),
        (CLIP, (3, 3), (99, 99), vec![15]),
        (CLIP, (2, 1), (1, 2), vec![]),
        (CLIP, (1, 2), (2, 1), vec![]),
        (CLIP, (4, 4), (9, 9), vec![]),
        (CLIP, (-9, 0), (-1, 3), vec![]),
        (0, (1, 1), (0, 0), (0..16).collect()),
    ] {
        let mut board = board(4, 4, 8);
        let list = [
            (FORE, 1),
            (CLPTL, xy(top_left.0, top_left.1)),
            (CLPBR, xy(bottom_right.0, bottom_right.1)),
            (CMD, FILL | flags),
            (XY2, xy(4, 4)),
            (XY1, 0),
        ];
        assert_eq!(draw(&mut board, &list), 6 + drawn.len() as u64);
        assert_eq!(lit(&board), drawn);
    }
}

/// Copies of 3 by 2 on a 4 by 4 board: a pixel past an edge of either buffer is not
/// one of the next row. Those past the source buffer's are visited.
#[test]
fn buffer_edges() {
    for (from, to, drawn) in [
        ((0, 0), (-2, 1), vec![4, 8]),
        ((0, 0), (3, 1), vec![7, 11]),
        ((0, 0), (1, -1), vec![1, 2, 3]),
        ((0, 0), (1, 3), vec![13, 14, 15]),
        ((-2, 1), (0, 0), vec![2, 6]),
        ((3, 1), (0, 0), vec![0, 4]),
        ((1, -1), (0, 0), vec![4, 5, 6]),
        ((1, 3), (0, 0), vec![0, 1, 2]),
    ] {
        let mut board = board(4, 4, 8);
        board.window_write(1, 0, &[1; 16]);
        let list = [
            (CMD, COPY | FROM_VIRTUAL),
            (XY2, xy(3, 2)),
            (XY0, xy(from.0, from.1)),
            (XY1, xy(to.0, to.1)),
        ];
        let visited = if to == (0, 0) { 6 } else { drawn.len() };
        assert_eq!(draw(&mut board, &list), 4 + visited as u64);
        assert_eq!(lit(&board), drawn);
    }
}

/// Each list ends in the last point; PLINE begins there.
#[test]
fn last_points() {
    let rows: [(&str, &List, (i32, i32)); 10] = [
        ("fresh", &[(FORE, 1)], (0, 0)),
        ("line", &[(CMD, SOLID_LINE), (XY1, xy(2, -3))], (2, -3)),
        ("NLST", &[(CMD, SOLID_LINE | NLST), (XY1, xy(5, 1))], (5, 1)),
        (
            "NLST, no pixel",
            &[(CMD, SOLID_LINE | NLST), (XY1, 0)],
            (0, 0),
        ),
        ("NOOP", &[(CMD, 0), (XY1, xy(5, 1))], (0, 0)),
        (
            "blit's corner",
            &[(CMD, FILL), (XY2, xy(2, 2)), (XY3, 3), (XY1, xy(6, 3))],
            (6, 3),
        ),
        ("empty blit", &[(CMD, FILL), (XY1, xy(-6, 3))], (-6, 3)),
        (
            "blit off the board",
            &[(CMD, FILL), (XY2, xy(9, 9)), (XY3, 1), (XY1, xy(3, -1))],
            (3, -1),
        ),
        (
            "blit outside the clip",
            &[(CMD, FILL | CLIP), (XY2, xy(2, 2)), (XY1, xy(1, 0))],
            (1, 0),
        ),
        (
            "NOOP after a line",
            &[
                (CMD, SOLID_LINE),
                (XY1, xy(1, 1)),
                (CMD, 0),
                (XY1, xy(3, 3)),
            ],
            (1, 1),
        ),
    ];
    for (name, list, last) in rows {
        let mut board = board(8, 4, 8);
        draw(&mut board, list);
        assert_eq!(board.record.last, xy(last.0, last.1), "{name}");
        let pixels = draw(&mut board, &[(CMD, SOLID_PLINE), (XY1, xy(7, 3))]) - 2;
        assert_eq!(pixels, 1 + (7 - last.0).max(3 - last.1) as u64, "{name}");
    }
}

/// The old last point stays while a PLINE runs.
#[test]
fn last_point_of_a_running_pline() {
    let mut board = board(8, 4, 8);
    board.store(0, &entries(&[(CMD, SOLID_PLINE), (XY1, xy(2, 0))]));
    board.post(0, 2);
    for (done, last) in [(4, 0), (1, xy(2, 0))] {
        assert_eq!(board.run(done), steps(done));
        assert_eq!(board.record.last, last);
    }
}

/// Lines on a row of 8, LPAT 0b0011 of length 4, FORE 1, BACK 2 over 9, a clip from x
/// 1 to x 3: the picture as digits, and the pattern's place after it.
#[test]
fn pattern_moves() {
    let unchanged = 0x2520_0000;
    for (command, from, to, row, place) in [
        (DASHED_LINE, 0, 4, "11221999", 1),
        (DASHED_LINE | TRNSP, 0, 4, "11991999", 1),
        (DASHED_LINE | NLST, 0, 4, "11229999", 0),
        (unchanged, 0, 4, "99999999", 1),
        (DASHED_LINE, -3, 2, "21199999", 2),
        (DASHED_LINE, 6, 9, "99999911", 0),
        (DASHED_LINE, 8, 12, "99999999", 1),
        (DASHED_LINE | NLST, 8, 12, "99999999", 0),
        (DASHED_LINE | CLIP, 0, 4, "91229999", 1),
        (DASHED_LINE | CLIP | TRNSP, 0, 4, "91999999", 1),
        (SOLID_LINE | CLIP, 0, 4, "91119999", 0),
        (SOLID_LINE, 0, 4, "11111999", 0),
        (SOLID_LINE | STPL, 0, 1, "11999999", 0),
        (SOLID_LINE | TRNSP, 0, 2, "11199999", 0),
    ] {
        let mut board = board(8, 1, 16);
        board.window_write(0, 0, &[9; 8]);
        let list = [
            (FORE, 1),
            (BACK, 2),
            (LPAT, 3),
            (PCTRL, 4),
            (CLPTL, xy(1, 0)),
            (CLPBR, xy(3, 0)),
            (CMD, command),
            (XY0, xy(from, 0)),
            (XY1, xy(to, 0)),
        ];
        draw(&mut board, &list);
        let digits: String = board.display.iter().map(u8::to_string).collect();
        assert_eq!((&*digits, board.paper.pattern()), (row, (place, 0)));
    }
}

/// The plane mask hides all, and the pattern moves all the same.
#[test]
fn pattern_moves_under_a_mask() {
    let mut board = board(8, 1, 16);
    let list = [
        (MASK, 0),
        (LPAT, 3),
        (FORE, 1),
        (CMD, DASHED_LINE),
        (XY1, xy(4, 0)),
    ];
    draw(&mut board, &list);
    assert_eq!((board.display, board.record.pattern_place), (vec![0; 8], 5));
}

/// PSCL 0 to 7 is the scale 1 to 8; PLEN 0 is the length 32.
#[test]
fn pattern_scales() {
    for pscl in 0..8 {
        let mut board = board(16, 1, 8);
        let list = [(LPAT, 1), (PCTRL, pscl << 5), (FORE, 1), (CMD, DASHED_LINE)];
        draw(&mut board, &list);
        draw(&mut board, &[(XY1, xy(15, 0))]);
        let ones = board.display.iter().filter(|&&pixel| pixel == 1).count();
        assert_eq!(ones as u32, pscl + 1);
        let record = board.record;
        let moved = record.pattern_place * (pscl + 1) + record.pattern_repeat;
        assert_eq!(moved, 16);
    }
}

/// After a dashed line of 2 pixels the pattern is at place 2, having started at 0:
/// what sets it back to PCTRL's start.
#[test]
fn pattern_starts() {
    let rows: [(&str, &List, u32); 8] = [
        ("nothing", &[], 2),
        ("PCTRL, the same value", &[(PCTRL, 4)], 0),
        ("PCTRL with SPTR 3", &[(PCTRL, 0x0304)], 3),
        ("LPAT", &[(LPAT, 1)], 2),
        ("PRST before the trigger", &[(CMD, DASHED_LINE | PRST)], 2),
        ("PRST", &[(CMD, DASHED_LINE | PRST), (XY1, 0)], 1),
        ("PRST with SOLID", &[(CMD, SOLID_LINE | PRST), (XY1, 0)], 0),
        (
            "PRST, no pixel",
            &[(CMD, DASHED_LINE | PRST | NLST), (XY1, 0)],
            0,
        ),
    ];
    for (name, list, place) in rows {
        let mut board = board(8, 1, 8);
        let line = [(PCTRL, 4), (CMD, DASHED_LINE), (XY1, xy(1, 0)), (XY0, 0)];
        draw(&mut board, &line);
        if !list.is_empty() {
            draw(&mut board, list);
        }
        assert_eq!(board.record.pattern_place, place, "{name}");
    }
}

/// Destination 1 is the virtual buffer; a copy into its own buffer reads what the
/// same command wrote.
#[test]
fn buffers_by_number() {
    let mut board = board(4, 1, 8);
    board.window_write(1, 0, &[1, 2, 3, 4]);
    let own = COPY | FROM_VIRTUAL | TO_VIRTUAL;
    draw(&mut board, &[(CMD, own), (XY2, xy(3, 1)), (XY1, xy(1, 0))]);
    assert_eq!(
        (&board.display[..], &board.virt[..]),
        (&[0; 4][..], &[1; 4][..])
    );
    draw(&mut board, &[(CMD, COPY | FROM_VIRTUAL), (XY1, xy(1, 0))]);
    assert_eq!(board.display, [0, 1, 1, 1]);
}
