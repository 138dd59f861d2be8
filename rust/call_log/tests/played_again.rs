//! Random calls on a board that writes their log; the log is read, and its calls are made again on another board. Answers and
//! memories must be the same, and so must the log of the second board.

use std::cell::RefCell;
use std::io::{self, Write};
use std::rc::Rc;

use call_log::{Call, Log, Panel, Reader};
use compare::lists::{ENTRY, Size, list};
use compare::random::Random;
use pramolyt::{DISPLAY, Feed, VIRTUAL};

/// A tile has room on it.
const SIZE: Size = Size {
    width: 17,
    height: 9,
};
const ENTRIES: u64 = 20;

/// A log in memory, which the test can look at.
#[derive(Clone, Default)]
struct Shared(Rc<RefCell<Vec<u8>>>);

impl Write for Shared {
    fn write(&mut self, bytes: &[u8]) -> io::Result<usize> {
        self.0.borrow_mut().write(bytes)
    }

    fn flush(&mut self) -> io::Result<()> {
        Ok(())
    }
}

fn new_panel(log: &Shared) -> Panel {
    let (width, height) = (SIZE.width as usize, SIZE.height as usize);
    let (made, panel) = Panel::make(Log::to(log.clone()), width, height, ENTRIES as usize);
    made.ok().expect("a board");
    panel
}

/// A number that is mostly small.
fn number(random: &mut Random, below: u64) -> usize {
    match random.below(30) {
        0 => random.word() as usize,
        _ => random.below(below) as usize,
    }
}

fn bytes(random: &mut Random) -> Vec<u8> {
    let length = random.below(90) as usize;
    random.bytes(length)
}

fn call(random: &mut Random, panel: &mut Panel) -> Call<'static> {
    let count = random.below(5) as usize;
    match random.weighted(&[1, 8, 2, 6, 8, 12, 3, 3, 3]) {
        0 => Call::Make {
            width: SIZE.width as usize,
            height: number(random, 10),
            entries: ENTRIES as usize,
        },
        1 => Call::Store {
            first: number(random, ENTRIES + 1),
            bytes: list(random, SIZE, count).into(),
        },
        2 => Call::Overwrite {
            first: number(random, ENTRIES + 1),
            bytes: random.bytes(ENTRY).into(),
        },
        3 => Call::Feed {
            feed: Feed::from_parts(number(random, ENTRIES + 1), [7, 0, 0, 0], count as u32),
            piece: bytes(random).into(),
        },
        4 => Call::Post {
            start: number(random, ENTRIES),
            count: number(random, 6),
        },
        5 => Call::Run {
            budget: number(random, 40) as u64,
        },
        6 => Call::Write {
            number: number(random, 3),
            offset: number(random, 160),
            bytes: bytes(random).into(),
        },
        7 => Call::Export {
            number: number(random, 3),
            room: 150 + number(random, 30),
        },
        _ => Call::Import {
            number: number(random, 3),
            picture: panel.export(DISPLAY).unwrap_or_default().into(),
        },
    }
}

/// A list stored and posted, long enough for a fill from a tile.
fn list_calls(random: &mut Random) -> [Call<'static>; 2] {
    let start = number(random, ENTRIES);
    let count = random.below(10) as usize;
    let store = Call::Store {
        first: start,
        bytes: list(random, SIZE, count).into(),
    };
    [store, Call::Post { start, count }]
}

/// Calls that belong together, or one.
fn calls(random: &mut Random, panel: &mut Panel) -> Vec<Call<'static>> {
    match random.below(4) {
        0 => list_calls(random).into(),
        _ => vec![call(random, panel)],
    }
}

/// Both boards and their memories are the same.
fn same(one: &Panel, other: &Panel) {
    assert_eq!(one.board(), other.board());
    assert_eq!(one.list(), other.list());
    for number in [DISPLAY, VIRTUAL] {
        assert_eq!(one.buffer(number), other.buffer(number));
    }
}

#[test]
fn a_log_played_again() {
    let mut random = Random::new(9);
    let mut answers = [0; 12];
    let mut tiles = 0;
    for _ in 0..200 {
        let (log, again) = (Shared::default(), Shared::default());
        let mut panel = new_panel(&log);
        for _ in 0..60 {
            for call in calls(&mut random, &mut panel) {
                if let Some(outcome) = panel.play(&call) {
                    answers[outcome.number as usize] += 1;
                }
            }
            tiles += usize::from(panel.board().holds_tile());
        }
        let mut other = new_panel(&again);
        let text = log.0.borrow().clone();
        let mut reader = Reader::new(&text[..]);
        reader.next_call().expect("a log").expect("the first make");
        while let Some(line) = reader.next_call().expect("a log") {
            assert_eq!(other.play(&line.call), line.outcome, "{:?}", line.call);
        }
        same(&panel, &other);
        assert_eq!(*again.0.borrow(), text);
    }
    for answer in [0, 1, 2, 3, 4, 5, 6, 7, 8, 9] {
        assert!(answers[answer] > 10, "answer {answer}: {answers:?}");
    }
    assert!(tiles > 10, "a tile is held after {tiles} calls");
}

#[test]
fn a_log_that_cannot_be_written_is_told_at_the_end() {
    struct Full;
    impl Write for Full {
        fn write(&mut self, _: &[u8]) -> io::Result<usize> {
            Err(io::ErrorKind::StorageFull.into())
        }

        fn flush(&mut self) -> io::Result<()> {
            Ok(())
        }
    }
    let (made, mut panel) = Panel::make(Log::to(Full), 1, 1, 1);
    made.ok().expect("the board is made all the same");
    assert_eq!(panel.post(0, 1).number(), 0);
    let error = panel.finish().expect_err("no byte was taken");
    assert_eq!(error.kind(), io::ErrorKind::StorageFull);
}
