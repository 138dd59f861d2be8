//! "A record is malformed when": each clause by a record that fails by it alone.

use crate::common::*;
use reference::record::word_name;
use reference::{
    export, feed, import, make, post, run, store, window_write, Feed, Record, NAMES, WORDS,
};

type Base = fn() -> Record;
type Change = fn(&mut Record);

fn idle() -> Record {
    make(8, 4, 16).1
}

/// Lists 2 to 4 and 8 to 9, no command under way.
fn waiting() -> Record {
    let mut record = idle();
    let list = [0; 80];
    post(&mut record, &list, 2, 3);
    post(&mut record, &list, 8, 2);
    record
}

/// The same lists with a line of 5 pixels under way, 2 of them visited.
fn drawing() -> Record {
    Record {
        next: 3,
        under_way: 1,
        visited: 2,
        cmd: SOLID_LINE,
        xy1: xy(4, 2),
        ..waiting()
    }
}

/// The same lists with a fill of 9 by 9 under way, of which 4 by 2 pixels show, 7 of them
/// visited.
fn filling() -> Record {
    Record {
        visited: 7,
        cmd: FILL,
        xy1: xy(4, 2),
        xy2: xy(9, 9),
        ..drawing()
    }
}

/// The same lists with a tiled fill of 20 by 10 pixels under way on a board of that size,
/// 150 of them visited, its tile whole at (4, 2).
fn tiling() -> Record {
    Record {
        width: 20,
        height: 10,
        visited: 150,
        cmd: COPY | APAT,
        xy0: xy(4, 2),
        xy1: xy(0, 0),
        xy2: xy(20, 10),
        tile_whole: 1,
        tile: [[5; 16]; 8],
        ..drawing()
    }
}

/// The same with a tile that is not whole.
fn not_whole() -> Record {
    Record {
        xy0: xy(5, 2),
        tile_whole: 0,
        tile: [[0; 16]; 8],
        ..tiling()
    }
}

/// Applies the change; the clauses that hold, and that each call then answers 1 and
/// leaves all as given, also where a memory is of another size.
fn faults(mut record: Record, change: Change) -> Vec<&'static str> {
    change(&mut record);
    let faults = record.faults();
    let before = record;
    for size in [80, 32, 0] {
        let (mut a, mut b, mut c) = (vec![1; size], vec![1; size], vec![1; size]);
        let answers = [
            post(&mut record, &a, 0, 0),
            store(&mut record, &mut a, 99, &[1]),
            feed(&mut record, &mut Feed::start(0), &mut a, &[]),
            window_write(&mut record, 9, 99, &[1], &mut b),
            export(&mut record, 9, &b, &mut c),
            import(&mut record, 9, b"P5", &mut b),
            run(&mut record, 9, &a, &mut b, &mut c),
        ];
        if !faults.is_empty() {
            assert_eq!(answers, [plain(1); 7]);
            assert_eq!(record, before);
        } else {
            assert!(answers.iter().all(|report| report.number != 1));
            record = before;
        }
        assert!(a.iter().chain(&b).chain(&c).all(|&byte| byte == 1));
    }
    faults
}

const FLAG: &str = "a flag is neither 0 nor 1";
const SIZE: &str = "a size is outside its limits";
const REGISTER: &str = "a register holds an illegal value";
const ZERO: &str = "a field that must be zero is not";
const PLACE: &str = "the pattern's place is not below the length";
const REPEAT: &str = "the pattern's repeat is not below the scale";
const EMPTY: &str = "a taken slot's span is empty";
const PASSES: &str = "a taken slot's span passes the memory";
const NEXT: &str = "the next entry is outside the active list";
const VISITED: &str = "the visited pixels are not below the command's count";
const TILE: &str = "the tile is not as the fill has it";

/// A clause, a well-formed record and the change by which that clause alone holds.
const CLAUSES: [(&str, Base, Change); 73] = [
    (FLAG, waiting, |r| r.active_taken = 2),
    (FLAG, waiting, |r| r.pending_taken = u32::MAX),
    (FLAG, drawing, |r| r.under_way = 3),
    (FLAG, tiling, |r| r.tile_whole = 2),
    (FLAG, tiling, |r| r.tile_whole = u32::MAX),
    (SIZE, idle, |r| r.width = 0),
    (SIZE, idle, |r| r.width = 2_049),
    (SIZE, idle, |r| r.height = 0),
    (SIZE, idle, |r| r.height = 2_049),
    (SIZE, idle, |r| r.entries = 0),
    (SIZE, idle, |r| r.entries = 4_097),
    (REGISTER, idle, |r| r.cmd = 1),
    (REGISTER, idle, |r| r.cmd = FILL | APAT),
    (REGISTER, tiling, |r| r.cmd |= KEYED),
    (REGISTER, idle, |r| r.fore = 256),
    (REGISTER, idle, |r| r.back = 256),
    (REGISTER, idle, |r| r.mask = 256),
    (REGISTER, idle, |r| r.key = 256),
    (REGISTER, idle, |r| r.pctrl = 1 << 16),
    (REGISTER, idle, |r| r.xy2 = 2_049),
    (REGISTER, idle, |r| r.xy3 = 4),
    (PLACE, idle, |r| r.pattern_place = 32),
    (PLACE, idle, |r| (r.pctrl, r.pattern_place) = (3, 3)),
    (REPEAT, idle, |r| r.pattern_repeat = 1),
    (REPEAT, idle, |r| (r.pctrl, r.pattern_repeat) = (0xE0, 8)),
    (ZERO, idle, |r| r.active_start = 1),
    (ZERO, idle, |r| r.active_count = 1),
    (ZERO, idle, |r| r.pending_start = 1),
    (ZERO, idle, |r| r.pending_count = 1),
    (ZERO, idle, |r| r.next = 1),
    (ZERO, idle, |r| r.visited = 1),
    (ZERO, waiting, |r| r.visited = 1),
    ("pending is taken without active", idle, |r| {
        (r.pending_taken, r.pending_count) = (1, 1)
    }),
    ("a command is under way without active", idle, |r| {
        (r.under_way, r.cmd) = (1, SOLID_LINE)
    }),
    (EMPTY, waiting, |r| r.pending_count = 0),
    (PASSES, waiting, |r| r.pending_count = 9),
    (PASSES, waiting, |r| r.pending_start = u32::MAX),
    (PASSES, waiting, |r| r.active_count = u32::MAX),
    (NEXT, waiting, |r| r.next = 1),
    (NEXT, waiting, |r| r.next = 5),
    (NEXT, drawing, |r| r.next = 2),
    (NEXT, drawing, |r| r.next = 6),
    (VISITED, drawing, |r| r.visited = 5),
    (VISITED, drawing, |r| (r.visited, r.cmd) = (0, 0)),
    (VISITED, drawing, |r| {
        (r.visited, r.cmd, r.xy2) = (0, FILL, xy(9, 0))
    }),
    (VISITED, filling, |r| r.visited = 8),
    (VISITED, filling, |r| r.xy1 = xy(7, 1)),
    (VISITED, filling, |r| r.height = 3),
    (VISITED, filling, |r| (r.visited, r.xy3) = (15, 3)),
    (VISITED, filling, |r| {
        (r.visited, r.cmd, r.clpbr) = (0, FILL | CLIP, xy(3, 9))
    }),
    (VISITED, drawing, |r| {
        (r.visited, r.cmd, r.xy1) = (0, SOLID_LINE | NLST, 0)
    }),
    (VISITED, drawing, |r| {
        (r.visited, r.cmd, r.last) = (1, SOLID_PLINE, r.xy1)
    }),
    (VISITED, tiling, |r| r.visited = 200),
    (VISITED, not_whole, |r| r.visited = 200),
    (TILE, idle, |r| r.tile_whole = 1),
    (TILE, idle, |r| r.tile[0][0] = 1),
    (TILE, idle, |r| r.tile[7][15] = 128),
    (TILE, idle, |r| (r.cmd, r.tile_whole) = (COPY | APAT, 1)),
    (TILE, waiting, |r| (r.tile_whole, r.tile[3]) = (1, [9; 16])),
    (TILE, drawing, |r| r.tile_whole = 1),
    (TILE, filling, |r| r.tile[4][3] = 2),
    (TILE, tiling, |r| r.tile_whole = 0),
    (TILE, tiling, |r| (r.tile_whole, r.tile) = (0, [[0; 16]; 8])),
    (TILE, tiling, |r| r.cmd = COPY),
    (TILE, tiling, |r| r.xy0 = xy(-1, 2)),
    (TILE, tiling, |r| r.xy0 = xy(5, 2)),
    (TILE, tiling, |r| r.xy0 = xy(4, -1)),
    (TILE, tiling, |r| r.xy0 = xy(4, 3)),
    (TILE, tiling, |r| (r.width, r.visited) = (19, 0)),
    (TILE, tiling, |r| (r.height, r.visited) = (9, 0)),
    (TILE, not_whole, |r| r.tile_whole = 1),
    (TILE, not_whole, |r| r.tile[2][1] = 7),
    (TILE, not_whole, |r| r.xy0 = xy(4, 2)),
];

#[test]
fn each_clause_alone() {
    for (clause, base, change) in CLAUSES {
        assert_eq!(faults(base(), change), [clause]);
    }
}

/// An empty active list leaves the next entry no place to be.
#[test]
fn empty_active_list() {
    assert_eq!(faults(waiting(), |r| r.active_count = 0).len(), 2);
}

/// The nearest records that are well-formed, some with an entry before the next one
/// that is no XY1.
#[test]
fn well_formed_neighbours() {
    let rows: [(Base, Change); 29] = [
        (idle, |_| {}),
        (idle, |r| (r.width, r.height, r.entries) = (2_048, 1, 4_096)),
        (idle, |r| {
            (r.lpat, r.last, r.clptl) = (u32::MAX, u32::MAX, u32::MAX)
        }),
        (idle, |r| r.pattern_place = 31),
        (idle, |r| (r.pctrl, r.pattern_repeat) = (0xE0, 7)),
        (waiting, |_| {}),
        (waiting, |r| r.next = 4),
        (waiting, |r| r.pending_count = 8),
        (waiting, |r| (r.pending_start, r.pending_count) = (2, 3)),
        (drawing, |_| {}),
        (drawing, |r| r.next = 5),
        (drawing, |r| r.visited = 4),
        (drawing, |r| (r.visited, r.cmd, r.xy2) = (7, FILL, xy(5, 2))),
        (filling, |_| {}),
        (filling, |r| (r.visited, r.xy1) = (3, xy(7, 0))),
        (filling, |r| (r.visited, r.xy3) = (14, 3)),
        (filling, |r| (r.visited, r.xy3) = (9, 2)),
        (filling, |r| {
            (r.visited, r.cmd, r.clpbr) = (0, FILL | CLIP, xy(4, 2))
        }),
        (filling, |r| (r.visited, r.xy1) = (31, xy(-1, -1))),
        (drawing, |r| {
            (r.visited, r.cmd, r.last) = (32_772, SOLID_PLINE, xy(-32_768, 0))
        }),
        (idle, |r| r.cmd = COPY | APAT),
        (tiling, |_| {}),
        (tiling, |r| r.tile = [[0; 16]; 8]),
        (tiling, |r| r.tile[7][15] = 255),
        (tiling, |r| (r.xy0, r.xy3, r.xy1) = (0, 3, xy(19, 9))),
        (tiling, |r| r.cmd |= FROM_VIRTUAL | TO_VIRTUAL),
        (not_whole, |_| {}),
        (not_whole, |r| r.xy0 = xy(-32_768, 32_767)),
        (not_whole, |r| (r.cmd, r.xy0) = (COPY, xy(4, 2))),
    ];
    for (base, change) in rows {
        assert_eq!(faults(base(), change), [""; 0]);
    }
}

#[test]
fn words_and_names() {
    let words: [u32; WORDS] = std::array::from_fn(|word| word as u32 + 1);
    let record = Record::from_words(&words);
    assert_eq!(record.words(), words);
    let text = format!("{record:?}");
    for (name, word) in NAMES.iter().zip(words) {
        assert!(text.contains(&format!(" {name}: {word}")), "{name}");
    }
}

/// The tile is words 29 to 60, row by row, four bytes a word, the first one lowest.
#[test]
fn words_of_the_tile() {
    for (word, row, column, name) in [
        (29, 0, 0, "tile[0][0]"),
        (30, 0, 4, "tile[0][4]"),
        (33, 1, 0, "tile[1][0]"),
        (60, 7, 12, "tile[7][12]"),
    ] {
        let mut words = [0; WORDS];
        words[word] = 0x0403_0201;
        let record = Record::from_words(&words);
        assert_eq!(record.tile[row][column..column + 4], [1, 2, 3, 4]);
        assert_eq!(record.tile.as_flattened().iter().sum::<u8>(), 10);
        assert_eq!((word_name(word).as_str(), record.words()), (name, words));
    }
    assert_eq!(word_name(28), "tile_whole");
}
