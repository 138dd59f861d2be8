//! The board record, and when it is malformed.

use crate::entries::{legal, pattern_control, register, LONGEST_SIDE, MOST_ENTRIES};
use crate::state::State;
use crate::tiles::{Tile, COLUMNS};

/// "The board record has the three sizes, an active slot, a pending slot, the next
/// entry, whether a command is under way, the visited pixels of that command, the
/// registers, the pattern state and the last point". It also "holds whether the tile was
/// whole, and if so the tile" (document 02, R-7).
///
/// The fields ending in `taken`, `under_way` and `tile_whole` are flags, 0 or 1. `last` is
/// the last point as XY1's word: x in the high half, y in the low half, each two's
/// complement.
#[derive(Clone, Copy, PartialEq, Eq, Debug)]
pub struct Record {
    pub width: u32,
    pub height: u32,
    pub entries: u32,
    pub active_taken: u32,
    pub active_start: u32,
    pub active_count: u32,
    pub pending_taken: u32,
    pub pending_start: u32,
    pub pending_count: u32,
    pub next: u32,
    pub under_way: u32,
    pub visited: u32,
    pub cmd: u32,
    pub fore: u32,
    pub back: u32,
    pub mask: u32,
    pub key: u32,
    pub lpat: u32,
    pub pctrl: u32,
    pub clptl: u32,
    pub clpbr: u32,
    pub xy0: u32,
    pub xy2: u32,
    pub xy3: u32,
    pub xy1: u32,
    pub pattern_place: u32,
    pub pattern_repeat: u32,
    pub last: u32,
    pub tile_whole: u32,
    pub tile: Tile,
}

/// The words of a record: a field each, and then the tile, four bytes a word, the first
/// byte lowest.
pub const WORDS: usize = FIELDS + 32;
const FIELDS: usize = NAMES.len();

/// The names of the record's fields but the tile, in the order of its words.
pub const NAMES: [&str; 29] = [
    "width",
    "height",
    "entries",
    "active_taken",
    "active_start",
    "active_count",
    "pending_taken",
    "pending_start",
    "pending_count",
    "next",
    "under_way",
    "visited",
    "cmd",
    "fore",
    "back",
    "mask",
    "key",
    "lpat",
    "pctrl",
    "clptl",
    "clpbr",
    "xy0",
    "xy2",
    "xy3",
    "xy1",
    "pattern_place",
    "pattern_repeat",
    "last",
    "tile_whole",
];

/// The name of a word; one of the tile's goes by its first byte.
pub fn word_name(word: usize) -> String {
    match NAMES.get(word) {
        Some(name) => name.to_string(),
        None => {
            let byte = 4 * (word - FIELDS);
            format!("tile[{}][{}]", byte / COLUMNS, byte % COLUMNS)
        }
    }
}

/// Where the registers begin among the words, in the order of their numbers.
const FIRST_REGISTER: usize = 12;

impl Record {
    /// "Fresh: all registers zero but MASK 255; pattern at 0, 0; last point (0, 0);
    /// slots empty".
    pub fn fresh(width: u32, height: u32, entries: u32) -> Record {
        let mut record = Record::from_words(&[0; WORDS]);
        record.width = width;
        record.height = height;
        record.entries = entries;
        record.set_state(&State::fresh(width, height));
        record
    }

    /// The fields in the order of their names, then the tile.
    pub fn words(&self) -> [u32; WORDS] {
        let (fields, bytes) = (self.fields(), self.tile.as_flattened());
        let of_tile = |word: usize| std::array::from_fn(|k| bytes[4 * (word - FIELDS) + k]);
        std::array::from_fn(|word| match fields.get(word) {
            Some(field) => *field,
            None => u32::from_le_bytes(of_tile(word)),
        })
    }

    fn fields(&self) -> [u32; FIELDS] {
        [
            self.width,
            self.height,
            self.entries,
            self.active_taken,
            self.active_start,
            self.active_count,
            self.pending_taken,
            self.pending_start,
            self.pending_count,
            self.next,
            self.under_way,
            self.visited,
            self.cmd,
            self.fore,
            self.back,
            self.mask,
            self.key,
            self.lpat,
            self.pctrl,
            self.clptl,
            self.clpbr,
            self.xy0,
            self.xy2,
            self.xy3,
            self.xy1,
            self.pattern_place,
            self.pattern_repeat,
            self.last,
            self.tile_whole,
        ]
    }

    /// The record with these fields, whether well-formed or not.
    pub fn from_words(words: &[u32; WORDS]) -> Record {
        let [width, height, entries, rest @ ..] = *words;
        let [active_taken, active_start, active_count, rest @ ..] = rest;
        let [pending_taken, pending_start, pending_count, rest @ ..] = rest;
        let [next, under_way, visited, rest @ ..] = rest;
        let [cmd, fore, back, mask, key, lpat, pctrl, rest @ ..] = rest;
        let [clptl, clpbr, xy0, xy2, xy3, xy1, rest @ ..] = rest;
        let [pattern_place, pattern_repeat, last, tile_whole, bytes @ ..] = rest;
        let byte = |k: usize| bytes[k / 4].to_le_bytes()[k % 4];
        let row = |row| std::array::from_fn(|column| byte(COLUMNS * row + column));
        let tile = std::array::from_fn(row);
        #[rustfmt::skip]
        let record = Record {
            width, height, entries,
            active_taken, active_start, active_count,
            pending_taken, pending_start, pending_count,
            next, under_way, visited,
            cmd, fore, back, mask, key, lpat, pctrl,
            clptl, clpbr, xy0, xy2, xy3, xy1,
            pattern_place, pattern_repeat, last,
            tile_whole, tile,
        };
        record
    }

    /// The registers in the order of their numbers.
    pub fn registers(&self) -> [u32; register::COUNT] {
        let fields = self.fields();
        std::array::from_fn(|number| fields[FIRST_REGISTER + number])
    }

    /// The part of the record that a step works on.
    pub fn state(&self) -> State {
        State {
            width: self.width,
            height: self.height,
            registers: self.registers(),
            pattern_place: self.pattern_place,
            pattern_repeat: self.pattern_repeat,
            last: self.last,
            under_way: self.under_way == 1,
            visited: self.visited,
            tile: (self.tile_whole == 1).then_some(self.tile),
        }
    }

    /// Takes that part back after a step.
    pub fn set_state(&mut self, state: &State) {
        let mut words = self.words();
        words[FIRST_REGISTER..][..register::COUNT].copy_from_slice(&state.registers);
        *self = Record {
            pattern_place: state.pattern_place,
            pattern_repeat: state.pattern_repeat,
            last: state.last,
            under_way: u32::from(state.under_way),
            visited: state.visited,
            tile_whole: u32::from(state.tile.is_some()),
            tile: state.tile.unwrap_or_default(),
            ..Record::from_words(&words)
        };
    }

    /// The clauses of "A record is malformed when" that hold of this record; it is
    /// well-formed where there are none.
    pub fn faults(&self) -> Vec<&'static str> {
        let pattern = pattern_control(self.pctrl);
        let place_past = self.pattern_place >= pattern.length;
        let repeat_past = self.pattern_repeat >= pattern.scale;
        let no_active = self.active_taken == 0;
        let spans = self.taken_spans();
        let end = u64::from(self.entries);
        let empty = spans.iter().any(|span| span.1 == 0);
        let passes = spans.iter().any(|span| span.0 + span.1 > end);
        let (pending, under_way) = (self.pending_taken == 1, self.under_way == 1);
        let visited_all = under_way && self.visited_all();
        #[rustfmt::skip]
        let clauses = [
            ("a flag is neither 0 nor 1", !self.flags_legal()),
            ("a size is outside its limits", !self.sizes_legal()),
            ("a register holds an illegal value", !self.registers_legal()),
            ("the pattern's place is not below the length", place_past),
            ("the pattern's repeat is not below the scale", repeat_past),
            ("a field that must be zero is not", !self.zeros_kept()),
            ("pending is taken without active", pending && no_active),
            ("a command is under way without active", under_way && no_active),
            ("a taken slot's span is empty", empty),
            ("a taken slot's span passes the memory", passes),
            ("the next entry is outside the active list", !self.next_in_active()),
            ("the visited pixels are not below the command's count", visited_all),
            ("the tile is not as the fill has it", !self.tile_kept()),
        ];
        clauses.iter().filter(|c| c.1).map(|c| c.0).collect()
    }

    /// Whether the answer to every call is 1, "record malformed".
    pub fn malformed(&self) -> bool {
        !self.faults().is_empty()
    }

    /// Flags are fields of their own, apart from the spans: 0 or 1.
    fn flags_legal(&self) -> bool {
        let slots = self.active_taken <= 1 && self.pending_taken <= 1;
        slots && self.under_way <= 1 && self.tile_whole <= 1
    }

    /// "the count of visited pixels is not below the current command's count". The count
    /// goes by sizes and registers; where they are illegal there is none.
    fn visited_all(&self) -> bool {
        let has_count = self.sizes_legal() && self.registers_legal();
        has_count && u64::from(self.visited) >= self.state().pixel_count()
    }

    /// "Width and height are 1 to 2,048; entries 1 to 4,096."
    fn sizes_legal(&self) -> bool {
        sizes_legal(self.width.into(), self.height.into(), self.entries.into())
    }

    /// "a register holds a value illegal below".
    fn registers_legal(&self) -> bool {
        let registers = self.registers();
        (0..register::COUNT).all(|number| legal(number, registers[number]))
    }

    /// "A slot not taken, the next entry of an idle board and the visited pixels
    /// with no command under way are all zero."
    fn zeros_kept(&self) -> bool {
        let zero_unless = |flag: u32, field: u32| flag != 0 || field == 0;
        zero_unless(self.active_taken, self.active_start)
            && zero_unless(self.active_taken, self.active_count)
            && zero_unless(self.active_taken, self.next)
            && zero_unless(self.pending_taken, self.pending_start)
            && zero_unless(self.pending_taken, self.pending_count)
            && zero_unless(self.under_way, self.visited)
    }

    /// "The record holds whether the tile was whole, and if so the tile, until the fill
    /// ends, and zeros otherwise, else it is malformed; wholeness is judged by its own
    /// registers and sizes, and a whole tile's bytes are free." (document 02, R-7)
    fn tile_kept(&self) -> bool {
        let state = self.state();
        if state.is_tiled() && state.tile_is_whole() {
            self.tile_whole != 0
        } else {
            self.tile_whole == 0 && self.tile == Tile::default()
        }
    }

    /// The spans (start, count) of the taken slots, the active one first.
    pub fn taken_spans(&self) -> Vec<(u64, u64)> {
        let slots = [
            (self.active_taken, self.active_start, self.active_count),
            (self.pending_taken, self.pending_start, self.pending_count),
        ];
        let taken = slots.into_iter().filter(|slot| slot.0 == 1);
        let span = |(_, start, count): (u32, u32, u32)| (start.into(), count.into());
        taken.map(span).collect()
    }

    /// "the next entry is outside the active list (with pixels still to visit it may
    /// be the list's end, and is past its start)". With no active list, that it is
    /// zero is another clause.
    fn next_in_active(&self) -> bool {
        if self.active_taken != 1 {
            return true;
        }
        let next = u64::from(self.next);
        let start = u64::from(self.active_start);
        let end = start + u64::from(self.active_count);
        if self.under_way == 1 {
            start < next && next <= end
        } else {
            start <= next && next < end
        }
    }
}

/// "Width and height are 1 to 2,048; entries 1 to 4,096."
pub fn sizes_legal(width: u64, height: u64, entries: u64) -> bool {
    let side = 1..=u64::from(LONGEST_SIDE);
    side.contains(&width)
        && side.contains(&height)
        && (1..=u64::from(MOST_ENTRIES)).contains(&entries)
}
