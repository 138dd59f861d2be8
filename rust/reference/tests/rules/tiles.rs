//! "Hatched berths" (document 02, R-7).

use crate::common::*;
use reference::drawing::raster;
use reference::pictures::picture;
use reference::{run, Sequence};

const TILED: u32 = COPY | APAT;
const WIDTH: i32 = 40;
const HEIGHT: i32 = 20;
const NO_TILE: [[u8; 16]; 8] = [[0; 16]; 8];

/// A board of 40 by 20 whose buffers have other bytes at each of 19 x 13 places.
fn painted() -> Sequence {
    let mut board = board(WIDTH as u64, HEIGHT as u64, 16);
    for number in 0..2 {
        let pixel = |k: i32| (k % WIDTH % 19 * 13 + k / WIDTH % 13 + 97 * number) as u8;
        let bytes: Vec<u8> = (0..WIDTH * HEIGHT).map(pixel).collect();
        assert_eq!(board.window_write(number as u64, 0, &bytes), plain(0));
    }
    board
}

/// A fill: CMD, MASK, the corners of the clip, XY0, XY2, XY3 and XY1.
#[derive(Clone, Copy, Debug)]
struct Fill {
    command: u32,
    mask: u32,
    clip: ((i32, i32), (i32, i32)),
    corner: (i32, i32),
    size: (i32, i32),
    direction: u32,
    to: (i32, i32),
}

/// The whole of display, from the tile at (5, 3) of the virtual buffer.
const FILL_ALL: Fill = Fill {
    command: TILED | FROM_VIRTUAL,
    mask: 255,
    clip: ((6, 2), (30, 17)),
    corner: (5, 3),
    size: (WIDTH, HEIGHT),
    direction: 0,
    to: (0, 0),
};

/// Entries before the first visit of [`list`].
const ENTRIES: u64 = 8;

fn list(fill: &Fill) -> [(usize, u32); ENTRIES as usize] {
    let word = |(x, y)| xy(x, y);
    [
        (CMD, fill.command),
        (MASK, fill.mask),
        (CLPTL, word(fill.clip.0)),
        (CLPBR, word(fill.clip.1)),
        (XY0, word(fill.corner)),
        (XY2, word(fill.size)),
        (XY3, fill.direction),
        (XY1, word(fill.to)),
    ]
}

impl Fill {
    fn has(&self, flag: u32) -> bool {
        self.command & flag == flag
    }

    /// Whether the fill has this pixel and clip and buffer show it.
    fn shows(&self, x: i32, y: i32) -> bool {
        let from = |corner: i32, length: i32, back: bool| {
            if back {
                corner - length + 1..corner + 1
            } else {
                corner..corner + length
            }
        };
        let ((left, top), (right, bottom)) = self.clip;
        let in_clip = left <= x && x <= right && top <= y && y <= bottom;
        let is_inside = (0..WIDTH).contains(&x) && (0..HEIGHT).contains(&y);
        is_inside
            && from(self.to.0, self.size.0, self.direction & 2 == 2).contains(&x)
            && from(self.to.1, self.size.1, self.direction & 1 == 1).contains(&y)
            && (!self.has(CLIP) || in_clip)
    }

    fn is_whole(&self) -> bool {
        (0..=WIDTH - 16).contains(&self.corner.0) && (0..=HEIGHT - 8).contains(&self.corner.1)
    }
}

/// What a fill leaves of the buffers as they stand at its trigger, and its visits.
fn expected(board: &Sequence, fill: &Fill) -> ([Vec<u8>; 2], u64) {
    let before = [board.display.clone(), board.virt.clone()];
    let mut after = before.clone();
    let source = &before[usize::from(fill.has(FROM_VIRTUAL))];
    let target = &mut after[usize::from(fill.has(TO_VIRTUAL))];
    let mut visits = 0;
    for (x, y) in (0..HEIGHT).flat_map(|y| (0..WIDTH).map(move |x| (x, y))) {
        if fill.shows(x, y) {
            visits += 1;
            if fill.is_whole() {
                let from = (fill.corner.1 + y % 8) * WIDTH + fill.corner.0 + x % 16;
                let pixel = &mut target[(y * WIDTH + x) as usize];
                let code = fill.command >> 24 & 15;
                *pixel = raster(code, fill.mask as u8, source[from as usize], *pixel);
            }
        }
    }
    (after, visits)
}

/// Draws the fill in one run on a painted board, and compares.
fn check(fill: &Fill) {
    let mut board = painted();
    let (after, visits) = expected(&board, fill);
    assert_eq!(draw(&mut board, &list(fill)), ENTRIES + visits, "{fill:?}");
    assert_eq!([&board.display, &board.virt], after.each_ref(), "{fill:?}");
    let record = &board.record;
    assert_eq!((record.tile_whole, record.tile), (0, NO_TILE), "{fill:?}");
}

/// "CMD bit 14, APAT, is legal for a BITBLT with SOLID, STPL and KEY zero." "6 for APAT
/// with any other command or style." Of the flags SOLID, TRNSP, STPL, KEY, NLST and PRST
/// there is none; CLIP, source and destination are free.
#[test]
fn legal_styles() {
    for free in (0..8).map(|bits| bits << 15) {
        for set in (0..64).map(|bits| bits << 18) {
            let legal_words = [0x1, 0x2, 0x5].map(|opcode| {
                let word = opcode << 28 | 3 << 24 | set | free | APAT;
                legal(CMD, word)
            });
            assert_eq!(legal_words, [set == 0, false, false], "{set:#x} {free:#x}");
        }
    }
    assert!((0..14).all(|bit| !legal(CMD, TILED | 1 << bit)));
    assert!((0..16).all(|code| legal(CMD, 0x1000_0000 | code << 24 | APAT)));
    assert!(!legal(CMD, APAT));
}

/// "Destination (x, y) then uses column x mod 16, row y mod 8 of the tile": the
/// destination's own x and y, wherever the fill begins.
#[test]
fn columns_and_rows() {
    let mut board = painted();
    let tile: Vec<Vec<u8>> = (0..8)
        .map(|row| board.virt[((3 + row) * 40 + 5) as usize..][..16].to_vec())
        .collect();
    draw(&mut board, &list(&FILL_ALL));
    for (y, row) in board.display.chunks(40).enumerate() {
        assert_eq!(row[..16], tile[y % 8]);
        assert_eq!(row[16..32], tile[y % 8]);
        assert_eq!(row[32..], tile[y % 8][..8]);
    }
    for to in [(0, 0), (1, 0), (0, 1), (7, 5), (15, 7), (16, 8), (17, 9)] {
        for size in [(1, 1), (3, 2), (16, 8), (23, 11)] {
            check(&Fill {
                size,
                to,
                ..FILL_ALL
            });
        }
    }
}

/// Raster code, mask and buffers are those of other blits.
#[test]
fn codes_masks_and_buffers() {
    for code in 0..16 {
        for mask in [255, 0x0F, 0xA5, 0] {
            for buffers in [0, FROM_VIRTUAL, TO_VIRTUAL, FROM_VIRTUAL | TO_VIRTUAL] {
                check(&Fill {
                    command: 0x1000_0000 | code << 24 | APAT | buffers,
                    mask,
                    ..FILL_ALL
                });
            }
        }
    }
}

/// The tile's "upper left corner is XY0", whatever XY3; corners of the fill on the board,
/// beside it and far off, with and without a clip.
#[test]
fn directions_places_and_clips() {
    for direction in 0..4 {
        for to in [
            (0, 0),
            (39, 19),
            (-3, -2),
            (41, 21),
            (20, 10),
            (-32_768, 5),
            (32_767, 32_767),
        ] {
            for size in [(1, 1), (9, 30), (64, 3), (2_048, 2_048)] {
                for command in [TILED, TILED | CLIP, TILED | FROM_VIRTUAL | CLIP] {
                    check(&Fill {
                        command,
                        size,
                        direction,
                        to,
                        ..FILL_ALL
                    });
                }
            }
        }
    }
    for clip in [
        ((5, 2), (2, 1)),
        ((40, 0), (99, 99)),
        ((-9, -9), (-1, 99)),
        ((13, 7), (13, 7)),
        ((-32_768, 9), (32_767, 9)),
    ] {
        check(&Fill {
            command: TILED | CLIP,
            clip,
            ..FILL_ALL
        });
    }
}

/// "If the tile isn't wholly inside its source buffer, nothing is drawn; the steps are
/// still those of the blit." Under every code, and by each edge alone.
#[test]
fn tiles_not_whole() {
    for (corner, whole) in [
        ((0, 0), true),
        ((24, 12), true),
        ((-1, 0), false),
        ((0, -1), false),
        ((25, 12), false),
        ((24, 13), false),
        ((-1, -1), false),
        ((40, 20), false),
        ((-32_768, 3), false),
        ((3, 32_767), false),
    ] {
        for code in 0..16 {
            let fill = Fill {
                command: 0x1000_0000 | code << 24 | APAT,
                corner,
                ..FILL_ALL
            };
            assert_eq!(fill.is_whole(), whole);
            check(&fill);
        }
    }
}

/// A board of exactly 16 by 8 has one whole tile, a smaller one has none.
#[test]
fn boards_of_a_tile() {
    for (width, height, corner, drawn) in [
        (16, 8, (0, 0), 9),
        (16, 8, (1, 0), 0),
        (16, 8, (0, 1), 0),
        (15, 8, (0, 0), 0),
        (16, 7, (0, 0), 0),
    ] {
        let mut board = board(width, height, 16);
        let pixels = vec![9; (width * height) as usize];
        board.window_write(1, 0, &pixels);
        let fill = Fill { corner, ..FILL_ALL };
        assert_eq!(draw(&mut board, &list(&fill)), ENTRIES + width * height);
        assert_eq!(board.display, vec![drawn; pixels.len()], "{corner:?}");
    }
}

/// "When triggered, the engine takes a tile": a fill that draws over its tile, from each
/// corner, draws what stood there.
#[test]
fn fills_over_their_tile() {
    for direction in 0..4 {
        for (code, buffers) in [(3, 0), (6, 0), (12, FROM_VIRTUAL | TO_VIRTUAL)] {
            let to = (
                if direction & 2 == 2 { 39 } else { 0 },
                if direction & 1 == 1 { 19 } else { 0 },
            );
            check(&Fill {
                command: 0x1000_0000 | code << 24 | APAT | buffers,
                direction,
                to,
                ..FILL_ALL
            });
        }
    }
}

/// A fill cut by a budget anywhere holds its tile until it ends, and each step draws the
/// next pixel of it.
#[test]
fn fills_in_steps() {
    let fill = Fill {
        command: TILED | CLIP,
        direction: 3,
        to: (35, 18),
        ..FILL_ALL
    };
    let mut board = painted();
    let (after, visits) = expected(&board, &fill);
    let row = |row: usize| std::array::from_fn(|x| board.display[(3 + row) * 40 + 5 + x]);
    let tile = std::array::from_fn(row);
    board.store(0, &entries(&list(&fill)));
    board.post(0, ENTRIES);
    board.run(ENTRIES - 1);
    assert_eq!((board.record.tile_whole, board.record.tile), (0, NO_TILE));
    assert_eq!(board.run(1), steps(1));
    for visit in 0..visits {
        let record = &board.record;
        assert_eq!((record.visited as u64, record.under_way), (visit, 1));
        assert_eq!((record.tile_whole, record.tile), (1, tile));
        let before = board.display.clone();
        assert_eq!(board.run(1), steps(1));
        let changed = (0..before.len()).filter(|&at| before[at] != board.display[at]);
        assert!(changed.count() <= 1);
    }
    assert_eq!((board.record.tile_whole, board.record.tile), (0, NO_TILE));
    assert_eq!([&board.display, &board.virt], after.each_ref());
    assert_eq!(board.fault(), None);
}

/// The tile comes from the record: what is written into the source buffer between two runs
/// of a fill is not seen, and neither is another tile's place in the record.
#[test]
fn the_record_has_the_tile() {
    let mut board = painted();
    board.store(0, &entries(&list(&FILL_ALL)));
    board.post(0, ENTRIES);
    board.run(ENTRIES + 5);
    let (mut record, mut virt) = (board.record, vec![0; 800]);
    let mut display = board.display.clone();
    let report = run(&mut record, 100, &board.list, &mut display, &mut virt);
    assert_eq!(report, steps(100));
    board.run(100);
    assert_eq!(display, board.display);
    record.tile = [[0x5A; 16]; 8];
    run(&mut record, 1, &board.list, &mut display, &mut virt);
    assert_eq!(display[105], 0x5A);
    assert_eq!((record.visited, record.tile_whole), (106, 1));
}

/// A tile that is not whole: the flag is zero all the while, and so are the bytes.
#[test]
fn a_tile_not_whole_in_steps() {
    let fill = Fill {
        corner: (25, 0),
        size: (5, 2),
        ..FILL_ALL
    };
    let mut board = painted();
    board.store(0, &entries(&list(&fill)));
    board.post(0, ENTRIES);
    board.run(ENTRIES);
    for visit in 0..10 {
        let record = &board.record;
        assert_eq!((record.visited, record.under_way), (visit, 1));
        assert_eq!((record.tile_whole, record.tile), (0, NO_TILE));
        assert_eq!(board.run(1), steps(1));
    }
    assert_eq!(board.record.active_taken, 0);
    assert_eq!(board.display, painted().display);
    assert_eq!(board.fault(), None);
}

/// A fill that shows no pixel ends at its trigger, sets the last point there and never
/// holds a tile.
#[test]
fn nothing_to_show() {
    for (command, size, to) in [
        (TILED, (5, 5), (40, 0)),
        (TILED, (0, 5), (3, 3)),
        (TILED | CLIP, (5, 5), (31, 2)),
    ] {
        let fill = Fill {
            command,
            size,
            to,
            ..FILL_ALL
        };
        let mut board = painted();
        board.store(0, &entries(&list(&fill)));
        board.post(0, ENTRIES);
        assert_eq!(board.run(ENTRIES), steps(ENTRIES));
        let record = &board.record;
        assert_eq!((record.active_taken, record.under_way), (0, 0));
        assert_eq!((record.tile_whole, record.tile), (0, NO_TILE));
        assert_eq!(record.last, xy(to.0, to.1));
        assert_eq!(board.fault(), None);
    }
}

/// Each fill of a list takes the tile as it then stands, a fill not whole none; a copy
/// after them reads its buffer.
#[test]
fn fills_one_after_another() {
    let mut board = painted();
    let fills = [
        FILL_ALL,
        Fill {
            command: TILED | TO_VIRTUAL,
            corner: (9, 9),
            ..FILL_ALL
        },
        Fill {
            corner: (-1, 0),
            ..FILL_ALL
        },
        Fill {
            command: 0x1600_0000 | APAT | FROM_VIRTUAL,
            corner: (1, 2),
            size: (9, 9),
            ..FILL_ALL
        },
    ];
    for fill in &fills {
        let (after, visits) = expected(&board, fill);
        assert_eq!(draw(&mut board, &list(fill)), ENTRIES + visits);
        assert_eq!([&board.display, &board.virt], after.each_ref());
    }
    let copy = [(CMD, COPY), (XY0, 0), (XY2, xy(1, 1)), (XY1, xy(5, 5))];
    draw(&mut board, &copy);
    assert_eq!(board.display[205], board.display[0]);
}

/// An illegal style is told by its place, and nothing of the list is drawn.
#[test]
fn illegal_styles_are_refused() {
    for command in [TILED | KEYED, TILED | STPL, FILL | APAT, SOLID_LINE | APAT] {
        let mut board = painted();
        board.store(3, &entries(&[(XY0, 0), (CMD, command), (XY1, 0)]));
        let refused = board.post(3, 3);
        assert_eq!((refused.number, refused.place), (6, 4), "{command:#x}");
        assert_eq!(board.run(9), steps(0));
    }
}

/// A quay plan that is imported (document 02, R-9) is a source of tiles. While the fill is
/// under way an export is done, with the buffer as it stands, and an import is 7; both
/// leave the tile.
#[test]
fn tiles_and_pictures() {
    let plan: Vec<u8> = (0..WIDTH * HEIGHT).map(|k| (k % 251) as u8).collect();
    let plan = picture(WIDTH as u32, HEIGHT as u32, &plan);
    let mut board = painted();
    assert_eq!(board.import(1, &plan), plain(0));
    let (after, visits) = expected(&board, &FILL_ALL);
    board.store(0, &entries(&list(&FILL_ALL)));
    board.post(0, ENTRIES);
    board.run(ENTRIES + 50);
    let record = board.record;
    assert_eq!((record.tile_whole, record.visited), (1, 50));
    for number in 0..2 {
        let mut output = vec![0; plan.len()];
        assert_eq!(board.export(number, &mut output).number, 0);
        let buffer = if number == 0 {
            &board.display
        } else {
            &board.virt
        };
        assert!(output.ends_with(buffer));
        assert_eq!(board.import(number, &plan), plain(7));
        assert_eq!(board.record, record);
    }
    assert_eq!(board.run(visits), steps(visits - 50));
    assert_eq!([&board.display, &board.virt], after.each_ref());
    assert_eq!(board.import(0, &plan), plain(0));
    assert_eq!(board.fault(), None);
}
