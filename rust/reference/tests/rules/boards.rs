//! "Boards to check".

use crate::common::*;
use reference::drawing::{line_pixel, point, raster};
use reference::entries::entry_at;

#[test]
fn p1_p2_p3_raster() {
    for (code, s, d, mask, new) in [
        (6, 0x0F, 0x33, 0xFF, 0x3C),
        (2, 0x0F, 0x33, 0xFF, 0x0C),
        (3, 0x55, 0xAA, 0x0F, 0xA5),
    ] {
        assert_eq!(raster(code, mask, s, d), new);
        let mut board = board(1, 1, 8);
        board.window_write(0, 0, &[d]);
        let command = 0x1080_0000 | code << 24;
        draw(
            &mut board,
            &[
                (MASK, mask.into()),
                (FORE, s.into()),
                (CMD, command),
                (XY2, xy(1, 1)),
                (XY1, 0),
            ],
        );
        assert_eq!(board.display, [new]);
    }
}

#[test]
fn p4_p5_line_pixels() {
    for (end, pixels) in [
        ((4, 2), [(0, 0), (1, 0), (2, 1), (3, 1), (4, 2)]),
        ((4, -2), [(0, 0), (1, -1), (2, -1), (3, -2), (4, -2)]),
    ] {
        let (a, b) = (point(0), point(xy(end.0, end.1)));
        for (i, (x, y)) in pixels.into_iter().enumerate() {
            assert_eq!(line_pixel(a, b, i as i64), point(xy(x, y)));
        }
    }
}

#[test]
fn p6_line_of_one_pixel() {
    for (flags, visited, pixel) in [(0, 1, 9), (NLST, 0, 0)] {
        let mut board = board(8, 4, 8);
        let list = [
            (FORE, 9),
            (CMD, SOLID_LINE | flags),
            (XY0, xy(3, 3)),
            (XY1, xy(3, 3)),
        ];
        assert_eq!(draw(&mut board, &list), 4 + visited);
        assert_eq!(board.display[3 * 8 + 3], pixel);
    }
}

#[test]
fn p7_pattern_bits() {
    let mut board = board(8, 1, 8);
    let list = [
        (LPAT, 5),
        (PCTRL, 0x2123),
        (FORE, 1),
        (CMD, DASHED_LINE),
        (XY1, xy(6, 0)),
    ];
    draw(&mut board, &list);
    assert_eq!(board.display, [0, 1, 1, 1, 1, 0, 0, 0]);
}

#[test]
fn p8_p11_legal_words() {
    for (register, data, expected) in [
        (PCTRL, 0x2003, false),
        (PCTRL, 0x0303, false),
        (PCTRL, 0x0203, true),
        (PCTRL, 0x1F00, true),
        (XY2, 0x0800_0800, true),
        (XY2, 0x0801_0000, false),
    ] {
        assert_eq!(legal(register, data), expected, "{register} {data:#x}");
    }
}

#[test]
fn p9_p10_overlapping_copies() {
    for (direction, from, to, row) in [(0, 0, 1, [1, 1, 1, 1, 1, 0]), (2, 3, 4, [1, 1, 2, 3, 4, 0])]
    {
        let mut board = board(6, 1, 8);
        board.window_write(0, 0, &[1, 2, 3, 4, 5, 0]);
        let list = [
            (CMD, COPY),
            (XY2, xy(4, 1)),
            (XY3, direction),
            (XY0, xy(from, 0)),
            (XY1, xy(to, 0)),
        ];
        assert_eq!(draw(&mut board, &list), 9);
        assert_eq!(board.display, row);
    }
}

#[test]
fn p12_entry_bytes() {
    for (first, expected) in [(0x60, Some((XY1, xy(4, 2)))), (0x61, None), (0x68, None)] {
        assert_eq!(entry_at(&[first, 0, 4, 0, 2], 0), expected);
    }
}

#[test]
fn list_posted_twice() {
    let mut board = board(8, 4, 4_096);
    assert_eq!(board.store(0, &example()), plain(0));
    assert_eq!(board.post(0, 4), plain(0));
    assert_eq!(board.post(0, 4), plain(0));
    assert_eq!(board.post(0, 4), plain(5));
    assert_eq!(board.run(9), steps(9));
    assert_eq!(board.record.taken_spans(), [(0, 4)]);
    assert_eq!((board.record.pending_taken, board.record.next), (0, 0));
    assert_eq!(board.run(3), steps(3));
    assert_eq!(board.store(0, &example()), plain(8));
    assert_eq!(board.run(100), steps(6));
    assert_eq!(board.store(0, &example()), plain(0));
    assert_eq!(board.fault(), None);
}
