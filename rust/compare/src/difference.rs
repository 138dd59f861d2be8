//! The first thing in which two sides differ, by name.

use crate::lists::ENTRY;
use crate::sides::{Engine, Reference, engine_feed};
use reference::record::word_name;
use reference::{PaperBoard, Record, Report};

/// What two sides answered.
pub fn of_answers(engine: &Report, reference: &Report) -> Result<(), String> {
    if engine == reference {
        return Ok(());
    }
    Err(format!(
        "the engine answers {engine:?}, the reference {reference:?}"
    ))
}

/// The records and the memories of both sides.
pub fn of_sides(engine: &Engine, reference: &Reference) -> Result<(), String> {
    let (board, record) = (engine.board.words(), reference.record.words());
    of_words(&board, &record, 0, "reference")?;
    let (feed, other) = (&engine.feed, &reference.feed);
    if *feed != engine_feed(other) {
        return Err(format!(
            "the feed record: the engine has {feed:02X?}, the reference {other:02X?}"
        ));
    }
    let output = |at| format!("output byte {at}");
    of_bytes(&engine.output, &reference.output, output, "reference")?;
    let (ours, theirs) = (&engine.memories, &reference.memories);
    let width = engine.board.width();
    of_list(&ours.list, &theirs.list, "reference")?;
    of_buffer(
        "display",
        width,
        &ours.display,
        &theirs.display,
        "reference",
    )?;
    of_buffer("virtual", width, &ours.virt, &theirs.virt, "reference")
}

/// What demand 3 says is equal between the board and the paper board.
pub fn from_paper(engine: &Engine, record: &Record, paper: &PaperBoard) -> Result<(), String> {
    let words = engine.board.words();
    let width = engine.board.width();
    let (place, repeat) = paper.pattern();
    let whose = "paper board";
    of_list(&engine.memories.list, paper.list(), whose)?;
    of_buffer(
        "display",
        width,
        &engine.memories.display,
        paper.display(),
        whose,
    )?;
    of_buffer("virtual", width, &engine.memories.virt, paper.virt(), whose)?;
    of_words(&words[12..25], &paper.registers(), 12, whose)?;
    of_words(&words[25..27], &[place, repeat], 25, whose)?;
    let (slots, queue) = (record.taken_spans(), paper.lists());
    if slots != queue {
        return Err(format!(
            "the slots hold {slots:?}, the paper board's queue {queue:?}"
        ));
    }
    Ok(())
}

/// Words of the record from word `from` on.
fn of_words(engine: &[u32], other: &[u32], from: usize, whose: &str) -> Result<(), String> {
    let Some(at) = first_unequal(engine, other) else {
        return Ok(());
    };
    let (ours, theirs) = (engine[at], other[at]);
    let name = word_name(from + at);
    Err(format!(
        "{name}: the engine has {ours:#X}, the {whose} {theirs:#X}"
    ))
}

fn of_list(engine: &[u8], other: &[u8], whose: &str) -> Result<(), String> {
    let name = |at| format!("list memory, byte {} of entry {}", at % ENTRY, at / ENTRY);
    of_bytes(engine, other, name, whose)
}

fn of_buffer(
    buffer: &str,
    width: usize,
    engine: &[u8],
    other: &[u8],
    whose: &str,
) -> Result<(), String> {
    let width = width.max(1);
    let name = |at| format!("{buffer} pixel ({}, {})", at % width, at / width);
    of_bytes(engine, other, name, whose)
}

fn of_bytes(
    engine: &[u8],
    other: &[u8],
    name: impl Fn(usize) -> String,
    whose: &str,
) -> Result<(), String> {
    let Some(at) = first_unequal(engine, other) else {
        return Ok(());
    };
    let (name, ours, theirs) = (name(at), engine[at], other[at]);
    Err(format!(
        "{name}: the engine has {ours:02X}, the {whose} {theirs:02X}"
    ))
}

/// Both have one length, as both sides are lent the same.
fn first_unequal<T: PartialEq>(ours: &[T], theirs: &[T]) -> Option<usize> {
    if ours == theirs {
        return None;
    }
    ours.iter().zip(theirs).position(|(a, b)| a != b)
}
