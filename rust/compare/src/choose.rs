//! Random calls that go by the board's state: most are done, and each ground of refusal comes up.

use crate::call::Call;
use crate::feeds::{self, Line};
use crate::headers;
use crate::lists::{Size, list};
use crate::pictures;
use crate::random::Random;
use crate::sides::Reference;
use reference::Record;

/// A span of list memory: its start and its count.
pub type Span = (u64, u64);

/// A run of so many steps is cheap. Where more are left, one in a few goes on for long, as the longest lines need.
const CHEAP: u64 = 2_000;
const DEAR: u64 = 80_000;

/// A call for a board in this state; `stored` is the span that was stored or fed last, and pieces come from the line.
pub fn call(random: &mut Random, side: &Reference, stored: Span, line: &mut Line) -> Call {
    let record = &side.record;
    let weights = match (record.active_taken, record.pending_taken) {
        (0, _) => [1, 12, 6, 2, 8, 6, 2, 4, 2],
        (_, 0) => [1, 6, 5, 1, 6, 2, 1, 1, 14],
        (_, _) => [1, 2, 4, 1, 5, 2, 1, 1, 14],
    };
    match random.weighted(&weights) {
        0 => make(random),
        1 => post(random, record, stored),
        2 => store(random, record),
        3 => feeds::start(random, record),
        4 => line.feed(random, record),
        5 => window_write(random, record),
        6 => export(random, side),
        7 => import(random, side),
        _ => Call::Run {
            budget: budget(random, side),
        },
    }
}

fn make(random: &mut Random) -> Call {
    let mut size = |limit: u64| match random.below(4) {
        0 => random.pick(&[0, 1, limit, limit + 1]),
        1 => extreme(random, limit),
        _ => 1 + random.below(limit),
    };
    Call::Make {
        width: size(2_048),
        height: size(2_048),
        entries: size(4_096),
    }
}

fn post(random: &mut Random, record: &Record, stored: Span) -> Call {
    let entries = u64::from(record.entries);
    let (start, count) = match random.weighted(&[40, 24, 10, 4, 1, 1, 1]) {
        0 => stored,
        1 => inside(random, entries),
        2 if record.active_taken == 1 => (record.active_start.into(), record.active_count.into()),
        2 | 3 => (random.below(2), entries),
        4 => (extreme(random, entries), 0),
        5 => (extreme(random, entries), extreme(random, entries)),
        _ => wrapping(random),
    };
    Call::Post { start, count }
}

/// A short span inside the memory.
fn inside(random: &mut Random, entries: u64) -> Span {
    let start = random.below(entries);
    (start, 1 + random.below((entries - start).min(30)))
}

/// A span whose sum passes 64 bits and comes out small.
fn wrapping(random: &mut Random) -> Span {
    let back = 1 + random.below(4);
    (back.wrapping_neg(), back + random.below(4))
}

/// A number at an extreme, or one that looks like a small number to who reads 32 bits of it.
pub fn extreme(random: &mut Random, near: u64) -> u64 {
    let close = random.below(near + 2);
    random.pick(&[
        0,
        near,
        near + 1,
        close,
        close + (1 << 32),
        (1 << 32) - 1,
        1 << 32,
        1 << 63,
        u64::MAX / 5 + 1,
        u64::MAX - 1,
        u64::MAX,
    ])
}

fn store(random: &mut Random, record: &Record) -> Call {
    let entries = u64::from(record.entries);
    let (first, count) = match random.weighted(&[40, 2, 1, 1, 1]) {
        0 => inside(random, entries),
        1 => (random.below(entries + 2), random.below(8)),
        2 => (extreme(random, entries), random.below(4)),
        3 => (0, entries.min(4_097)),
        _ => wrapping(random),
    };
    let mut bytes = list(random, Size::of(record), count as usize);
    if random.one_in(16) {
        bytes.truncate(bytes.len().saturating_sub(1 + random.below(4) as usize));
    }
    Call::Store { first, bytes }
}

fn window_write(random: &mut Random, record: &Record) -> Call {
    let len = u64::from(record.width) * u64::from(record.height);
    let number = pictures::number(random);
    let (offset, count) = match random.weighted(&[40, 2, 1, 4, 1]) {
        0 => inside(random, len),
        1 => (random.below(len + 2), random.below(40)),
        2 => (extreme(random, len), random.below(4)),
        3 => (0, len.min(4_096)),
        _ => wrapping(random),
    };
    Call::WindowWrite {
        number,
        offset,
        bytes: random.bytes(count as usize),
    }
}

fn export(random: &mut Random, side: &Reference) -> Call {
    let (size, pixels) = picture_size(side);
    let room = pictures::room(random, size, pixels);
    Call::Export {
        number: pictures::number(random),
        output: random.bytes(room),
    }
}

fn import(random: &mut Random, side: &Reference) -> Call {
    let (size, pixels) = picture_size(side);
    let raster = random.bytes(pixels);
    Call::Import {
        number: pictures::number(random),
        picture: headers::made(random, size, &raster).bytes,
    }
}

/// Width and height, and the pixels of the display as it is lent.
fn picture_size(side: &Reference) -> ((u64, u64), usize) {
    let Reference {
        record, memories, ..
    } = side;
    let size = (record.width.into(), record.height.into());
    (size, memories.display.len())
}

/// A budget that cuts a command anywhere, ends just before, at or after the last step, or is huge.
fn budget(random: &mut Random, side: &Reference) -> u64 {
    match random.weighted(&[1, 2, 6, 8, 4, 12]) {
        0 => 0,
        1 => 1,
        2 => random.below(12),
        3 => random.below(80),
        4 => random.below(CHEAP),
        _ => match side.steps_left(CHEAP) {
            Some(left) => {
                let before = left.saturating_sub(1);
                random.pick(&[before, left, left + 1, 1 << 32, 1 << 63, u64::MAX])
            }
            None if random.one_in(10) => random.below(DEAR),
            None => random.below(CHEAP),
        },
    }
}
