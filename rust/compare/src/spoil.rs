//! Hostile changes between calls: to the record, the sizes of the memories, and the lists behind the board's back.

use crate::lists::{ENTRY, Size, doubtful_entry, legal_data, legal_entry, point};
use crate::random::Random;
use crate::sides::{Memories, Reference};
use reference::entries::{pattern_control, register};
use reference::record::NAMES;
use reference::{Record, WORDS};

/// The word of the tile's flag, the last with a name of its own; the tile's bytes follow.
const TILE_WHOLE: usize = NAMES.len() - 1;

/// Changes one or two things.
pub fn spoil(random: &mut Random, side: &mut Reference) {
    for _ in 0..random.pick(&[1, 1, 2]) {
        match random.weighted(&[8, 3, 4]) {
            0 => spoil_record(random, &mut side.record),
            1 => spoil_memory(random, &mut side.memories),
            _ => spoil_list(random, side),
        }
    }
}

/// Changes one word to a value at an edge, or to another word's; at times all words to any.
fn spoil_record(random: &mut Random, record: &mut Record) {
    if random.one_in(50) {
        *record = Record::from_words(&std::array::from_fn(|_| random.half()));
        return;
    }
    let mut words = record.words();
    let at = match random.weighted(&[10, 2, 1]) {
        0 => random.below(TILE_WHOLE as u64) as usize,
        1 => TILE_WHOLE,
        _ => random.between(TILE_WHOLE as i64 + 1, WORDS as i64 - 1) as usize,
    };
    words[at] = match random.below(5) {
        0 => words[at].wrapping_add(1),
        1 => words[at].wrapping_sub(1),
        2 => words[at] ^ 1 << random.below(32),
        3 => random.pick(&words),
        _ => random.pick(&[
            0,
            1,
            2,
            4,
            32,
            255,
            256,
            2_048,
            2_049,
            4_096,
            4_097,
            0x7FFF_8000,
            1 << 31,
            u32::MAX,
        ]),
    };
    *record = Record::from_words(&words);
}

/// Makes a memory longer or shorter, or exchanges two.
fn spoil_memory(random: &mut Random, memories: &mut Memories) {
    let Memories {
        list,
        display,
        virt,
    } = memories;
    match random.below(5) {
        0 => std::mem::swap(list, display),
        1 => std::mem::swap(list, virt),
        2 => resize(random, list),
        3 => resize(random, display),
        _ => resize(random, virt),
    }
}

fn resize(random: &mut Random, memory: &mut Vec<u8>) {
    let len = memory.len();
    let less = |by: usize| len.saturating_sub(by);
    memory.resize(random.pick(&[0, less(1), len + 1, less(5), len + 5]), 0);
}

/// Writes an entry into list memory, mostly where the active list has yet to fetch.
fn spoil_list(random: &mut Random, side: &mut Reference) {
    let Reference {
        record, memories, ..
    } = side;
    let size = Size::of(record);
    let entry = match random.below(3) {
        0 => legal_entry(random, size),
        _ => doubtful_entry(random, size),
    };
    let entries = memories.list.len() / ENTRY;
    let place = match random.below(4) {
        0 => random.below(entries as u64) as usize,
        _ => (record.next as usize).saturating_add(random.below(4) as usize),
    };
    if place < entries {
        memories.list[place * ENTRY..][..ENTRY].copy_from_slice(&entry);
    }
}

/// A board's record, mostly well formed, that calls may not lead to: any registers, and a command under way anywhere.
pub fn anywhere(random: &mut Random, fresh: Record) -> Record {
    let size = Size::of(&fresh);
    let mut words = fresh.words();
    for number in 0..register::COUNT {
        words[12 + number] = legal_data(random, size, number);
    }
    let mut record = Record::from_words(&words);
    let pattern = pattern_control(record.pctrl);
    record.pattern_place = random.below(pattern.length.into()) as u32;
    record.pattern_repeat = random.below(pattern.scale.into()) as u32;
    record.last = point(random, size);
    if random.one_in(4) {
        return record;
    }
    let mut span = || {
        let start = random.below(record.entries.into()) as u32;
        let rest = record.entries - start;
        (start, 1 + random.below(rest.into()) as u32)
    };
    let (active, pending) = (span(), span());
    record.active_taken = 1;
    (record.active_start, record.active_count) = active;
    if random.one_in(2) {
        record.pending_taken = 1;
        (record.pending_start, record.pending_count) = pending;
    }
    let under_way = random.one_in(2);
    record.under_way = u32::from(under_way);
    record.next =
        record.active_start + record.under_way + random.below(record.active_count.into()) as u32;
    if under_way {
        let pixels = record.state().pixel_count();
        let (width, height) = record.state().blit().size;
        let of_blit = u64::from(width) * u64::from(height);
        let anywhere = random.below(pixels);
        let visited = [
            0,
            anywhere,
            anywhere,
            pixels.saturating_sub(1),
            pixels,
            pixels + random.below(of_blit.saturating_sub(pixels)),
            of_blit.saturating_sub(1),
            of_blit,
        ];
        record.visited = visited[random.weighted(&[4, 4, 4, 4, 2, 1, 1, 1])] as u32;
    }
    let state = record.state();
    if state.is_tiled() && state.tile_is_whole() {
        record.tile_whole = 1;
        record.tile = std::array::from_fn(|_| std::array::from_fn(|_| random.half() as u8));
    }
    record
}
