//! "Glyphs" (document 02, R-2).

use crate::common::*;
use reference::Sequence;

const STIPPLE: u32 = COPY | STPL;

/// A stippled blit: CMD, XY0, the width and height of XY2, XY3 and XY1.
struct Stipple {
    command: u32,
    from: (i32, i32),
    size: (i32, i32),
    direction: u32,
    to: (i32, i32),
}

/// Eight bits from (0, 0) to (0, 0), a row from left to right.
const ROW: Stipple = Stipple {
    command: STIPPLE | FROM_VIRTUAL,
    from: (0, 0),
    size: (8, 1),
    direction: 0,
    to: (0, 0),
};

/// FORE 1, BACK 2, the clip from (2, 0) to (5, 1), then the blit; each visit is a step.
fn stipple(board: &mut Sequence, blit: &Stipple) {
    let list = [
        (FORE, 1),
        (BACK, 2),
        (CLPTL, xy(2, 0)),
        (CLPBR, xy(5, 1)),
        (CMD, blit.command),
        (XY0, xy(blit.from.0, blit.from.1)),
        (XY2, xy(blit.size.0, blit.size.1)),
        (XY3, blit.direction),
        (XY1, xy(blit.to.0, blit.to.1)),
    ];
    let visits = draw(board, &list) - 9;
    assert_eq!(visits, shown(board, blit));
}

/// The pixels of a blit inside the buffer and, with CLIP, inside the clip.
fn shown(board: &Sequence, blit: &Stipple) -> u64 {
    let (width, height) = (board.record.width as i32, board.record.height as i32);
    let sign = |bit: u32| if blit.direction & bit == bit { -1 } else { 1 };
    let is_shown = |row: i32, column: i32| {
        let (x, y) = (blit.to.0 + sign(2) * column, blit.to.1 + sign(1) * row);
        let in_clip = (2..=5).contains(&x) && (0..=1).contains(&y);
        (0..width).contains(&x) && (0..height).contains(&y) && (blit.command & CLIP == 0 || in_clip)
    };
    let in_row = |row: i32| {
        (0..blit.size.0)
            .filter(|&column| is_shown(row, column))
            .count()
    };
    (0..blit.size.1).map(in_row).sum::<usize>() as u64
}

/// The row that a blit leaves of 9 9 9 9 9 9 9 9, as digits; the bits of the virtual
/// buffer are 10110001 01011010, four bytes of ones, a byte of zeros and 11000011.
fn row_of(blit: &Stipple) -> String {
    let mut board = board(8, 1, 16);
    board.window_write(0, 0, &[9; 8]);
    board.window_write(1, 0, &[0xB1, 0x5A, 255, 255, 255, 255, 0, 0xC3]);
    stipple(&mut board, blit);
    board.display.iter().map(u8::to_string).collect()
}

/// Of the flags SOLID, TRNSP, STPL, KEY, NLST and PRST a BITBLT has one of these sets.
#[test]
fn legal_styles() {
    const SOLID: u32 = 1 << 23;
    let legal_sets = [
        0,
        KEYED,
        SOLID,
        SOLID | TRNSP,
        STPL,
        STPL | TRNSP,
        SOLID | STPL,
        SOLID | STPL | TRNSP,
    ];
    for set in (0..64).map(|bits| bits << 18) {
        assert_eq!(
            legal(CMD, COPY | set),
            legal_sets.contains(&set),
            "{set:#x}"
        );
    }
}

/// A 1 draws FORE; a 0 draws BACK, or nothing with TRNSP; the most significant bit is
/// the leftmost.
#[test]
fn ones_and_zeros() {
    let command = ROW.command;
    for (command, row) in [
        (command, "12112221"),
        (command | TRNSP, "19119991"),
        (command | CLIP, "99112299"),
        (command | CLIP | TRNSP, "99119999"),
    ] {
        assert_eq!(row_of(&Stipple { command, ..ROW }), row);
    }
}

/// Any x may begin: within a byte, at the next one and at the last.
#[test]
fn bit_positions() {
    for (x, row) in [
        (1, "21122212"),
        (5, "22121211"),
        (7, "12121121"),
        (8, "21211212"),
        (11, "11212111"),
        (15, "21111111"),
        (45, "11122222"),
        (56, "11222211"),
    ] {
        let from = (x, 0);
        assert_eq!(row_of(&Stipple { from, ..ROW }), row, "x {x}");
    }
}

/// x < 0, x >= 8 x width and a y off the buffer draw nothing, opaque or not.
#[test]
fn bits_outside() {
    for (from, row) in [
        ((-1, 0), "91211222"),
        ((-7, 0), "99999991"),
        ((-8, 0), "99999999"),
        ((-64, 0), "99999999"),
        ((57, 0), "12222119"),
        ((63, 0), "19999999"),
        ((64, 0), "99999999"),
        ((0, -1), "99999999"),
        ((0, 1), "99999999"),
        ((32_767, 0), "99999999"),
        ((-32_768, 0), "99999999"),
    ] {
        assert_eq!(row_of(&Stipple { from, ..ROW }), row, "{from:?}");
        let command = ROW.command | TRNSP;
        let transparent = row.replace('2', "9");
        let blit = Stipple {
            command,
            from,
            ..ROW
        };
        assert_eq!(row_of(&blit), transparent, "{from:?}");
    }
}

/// A bit outside draws nothing under the codes that ignore the source, 0, 5, 10 and
/// 15; nor does a transparent 0.
#[test]
fn codes_that_ignore_the_source() {
    for (code, drawn) in [(0, 0), (5, 9), (10, !9), (15, 255)] {
        let mut board = board(8, 1, 16);
        for (flags, x, pixels) in [
            (0, -4, [9, 9, 9, 9, drawn, drawn, drawn, drawn]),
            (0, 60, [drawn, drawn, drawn, drawn, 9, 9, 9, 9]),
            (TRNSP, 0, [drawn, 9, drawn, drawn, 9, 9, 9, drawn]),
        ] {
            board.window_write(0, 0, &[9; 8]);
            board.window_write(1, 0, &[0xB1]);
            let blit = Stipple {
                command: 0x1020_0000 | code << 24 | flags | FROM_VIRTUAL,
                from: (x, 0),
                ..ROW
            };
            stipple(&mut board, &blit);
            assert_eq!(board.display, pixels, "code {code}");
        }
    }
}

/// With SOLID the source is FORE everywhere, also where XY0 is outside.
#[test]
fn solid_reads_no_bit() {
    for flags in [0, TRNSP] {
        for from in [(0, 0), (-9, 0), (64, 0), (0, -1), (0, 1), (-32_768, 32_767)] {
            let command = FILL | STPL | FROM_VIRTUAL | flags;
            let blit = Stipple {
                command,
                from,
                ..ROW
            };
            assert_eq!(row_of(&blit), "11111111");
        }
    }
}

/// Right to left, x falls by a bit at each pixel, into the byte before and out of the
/// buffer.
#[test]
fn right_to_left() {
    for (x, to, row) in [
        (7, 7, "12112221"),
        (7, 3, "22219999"),
        (10, 7, "12221212"),
        (2, 7, "99999121"),
        (66, 7, "22211999"),
        (-1, 7, "99999999"),
    ] {
        let blit = Stipple {
            from: (x, 0),
            direction: 2,
            to: (to, 0),
            ..ROW
        };
        assert_eq!(row_of(&blit), row, "x {x}");
    }
}

/// A glyph of 3 by 2 from the corner where each direction begins, and the rows above
/// and below the buffer.
#[test]
fn rows() {
    for (direction, from, to, picture) in [
        (0, (9, 0), (1, 0), [9, 1, 2, 1, 9, 2, 1, 1]),
        (1, (9, 1), (1, 1), [9, 1, 2, 1, 9, 2, 1, 1]),
        (2, (11, 0), (3, 0), [9, 1, 2, 1, 9, 2, 1, 1]),
        (3, (11, 1), (3, 1), [9, 1, 2, 1, 9, 2, 1, 1]),
        (0, (9, 1), (1, 0), [9, 2, 1, 1, 9, 9, 9, 9]),
        (1, (9, 0), (1, 1), [9, 9, 9, 9, 9, 1, 2, 1]),
    ] {
        let mut board = board(4, 2, 16);
        board.window_write(0, 0, &[9; 8]);
        board.window_write(1, 0, &[0, 0b0101_0000, 0, 0, 0, 0b0011_0000, 0, 0]);
        let blit = Stipple {
            from,
            size: (3, 2),
            direction,
            to,
            ..ROW
        };
        stipple(&mut board, &blit);
        assert_eq!(board.display, picture, "{direction}");
    }
}

/// Raster code and mask take FORE and BACK as any source.
#[test]
fn codes_and_masks() {
    for (code, mask, one, zero) in [
        (3, 0xFF, 0x0F, 0x55),
        (3, 0xF0, 0x03, 0x53),
        (6, 0xFF, 0x3C, 0x66),
        (2, 0xFF, 0x0C, 0x44),
        (12, 0x0F, 0x30, 0x3A),
    ] {
        let mut board = board(2, 1, 16);
        board.window_write(0, 0, &[0x33; 2]);
        board.window_write(1, 0, &[0x80, 0]);
        let list = [
            (FORE, 0x0F),
            (BACK, 0x55),
            (MASK, mask),
            (CMD, 0x1020_0000 | code << 24 | FROM_VIRTUAL),
            (XY2, xy(2, 1)),
            (XY1, 0),
        ];
        assert_eq!(draw(&mut board, &list), 6 + 2);
        assert_eq!(board.display, [one, zero], "code {code}");
    }
}

/// Within one buffer a bit is read as it stands at its visit, though the byte was
/// written by the same blit.
#[test]
fn bytes_just_written() {
    for (number, flags) in [(0, 0), (1, FROM_VIRTUAL | TO_VIRTUAL)] {
        for (direction, x, to, fore, back, before, after) in [
            (0, 0, 0, 0xFF, 0x3F, [0x40, 0, 0], [0x3F, 0x3F, 0]),
            (0, 0, 0, 0xC0, 0x3F, [0x80, 0, 0], [0xC0, 0xC0, 0]),
            (0, 7, 1, 0x80, 0x02, [0x01, 0, 0], [0x01, 0x80, 0x80]),
            (2, 15, 1, 0xFE, 0x02, [0, 0x01, 0], [0xFE, 0xFE, 0]),
        ] {
            let mut board = board(3, 1, 16);
            board.window_write(number, 0, &before);
            let list = [
                (FORE, fore),
                (BACK, back),
                (CMD, STIPPLE | flags),
                (XY0, xy(x, 0)),
                (XY2, xy(2, 1)),
                (XY3, direction),
                (XY1, xy(to, 0)),
            ];
            draw(&mut board, &list);
            let buffers = [&board.display, &board.virt];
            assert_eq!(buffers[number as usize][..], after);
            assert_eq!(buffers[1 - number as usize][..], [0; 3]);
        }
    }
}

/// The last point is XY1 as of any blit, and the line pattern stays.
#[test]
fn last_point_and_pattern() {
    let mut board = board(8, 1, 16);
    draw(&mut board, &[(PCTRL, 0x0304)]);
    let blit = Stipple {
        to: (5, -2),
        direction: 3,
        ..ROW
    };
    stipple(&mut board, &blit);
    assert_eq!(board.record.last, xy(5, -2));
    assert_eq!(board.paper.pattern(), (3, 0));
}
