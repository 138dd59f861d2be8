//! The module `list` against the library, and docs/FORMAT.md and include/pramolyt_list.h against the module: lists are
//! posted and run, and the record and the pictures looked at.

use pramolyt::list::{
    Buffer, Direction, ENTRY_BYTES, Entry, Flags, ILLEGAL_WORD, MAX_ENTRIES, MAX_PATTERN_LENGTH,
    MAX_PATTERN_SCALE, MAX_SIDE, Opcode, RasterCode, Register, command, pattern, point, size,
};
use pramolyt::{
    Answer, Board, DISPLAY, FileAnswer, VIRTUAL, list_size, pack, packed_size, picture_max, unpack,
};
use std::fs;
use std::path::Path;

const WIDTH: usize = 8;
const HEIGHT: usize = 4;
const AREA: usize = WIDTH * HEIGHT;
const ENTRIES: usize = 64;
const DONE: Answer = Answer::Done { steps: 0 };
const ILLEGAL: Answer = Answer::IllegalEntry { place: 0 };

const OPCODES: [Opcode; 4] = [Opcode::Noop, Opcode::Bitblt, Opcode::Line, Opcode::Pline];
const DIRECTIONS: [Direction; 4] = [
    Direction::UpperLeft,
    Direction::LowerLeft,
    Direction::UpperRight,
    Direction::LowerRight,
];
const FLAGS: [(&str, Flags); 10] = [
    ("SOLID", Flags::SOLID),
    ("TRNSP", Flags::TRNSP),
    ("STPL", Flags::STPL),
    ("KEY", Flags::KEY),
    ("NLST", Flags::NLST),
    ("PRST", Flags::PRST),
    ("CLIP", Flags::CLIP),
    ("SOURCE", Flags::SOURCE_VIRTUAL),
    ("DESTINATION", Flags::DESTINATION_VIRTUAL),
    ("APAT", Flags::APAT),
];

/// A board, its memories, and the list that is being built at the front of list memory.
struct Panel {
    board: Board,
    memory: [u8; 5 * ENTRIES],
    count: usize,
    display: Vec<u8>,
    virt: Vec<u8>,
}

impl Panel {
    fn of_size(width: usize, height: usize) -> Panel {
        let (made, board) = Board::make(width, height, ENTRIES);
        assert_eq!(made, DONE);
        Panel {
            board,
            memory: [0; 5 * ENTRIES],
            count: 0,
            display: vec![0; width * height],
            virt: vec![0; width * height],
        }
    }

    fn new() -> Panel {
        Panel::of_size(WIDTH, HEIGHT)
    }

    fn put(&mut self, register: Register, word: u32) {
        self.put_bytes(Entry::new(register, word).to_bytes());
    }

    fn put_bytes(&mut self, entry: [u8; 5]) {
        self.memory[5 * self.count..][..5].copy_from_slice(&entry);
        self.count += 1;
    }

    fn blit(&mut self, flags: Flags, size: u32, at: u32) {
        self.put(
            Register::Cmd,
            command(Opcode::Bitblt, RasterCode::Copy, flags),
        );
        self.put(Register::Xy2, size);
        self.put(Register::Xy1, at);
    }

    fn line(&mut self, flags: Flags, from: u32, to: u32) {
        self.put(
            Register::Cmd,
            command(Opcode::Line, RasterCode::Copy, flags),
        );
        self.put(Register::Xy0, from);
        self.put(Register::Xy1, to);
    }

    fn post(&mut self) -> Answer {
        self.board.post(&self.memory, 0, self.count)
    }

    fn run(&mut self, budget: u64) -> u64 {
        self.board
            .run(budget, &self.memory, &mut self.display, &mut self.virt)
            .ok()
            .expect("the run is done")
    }

    /// Posts and runs the list, begins another, and gives the pixels visited.
    fn draw(&mut self) -> usize {
        assert_eq!(self.post(), DONE);
        let steps = self.run(1_000_000) as usize;
        assert!(self.board.is_idle());
        steps - std::mem::take(&mut self.count)
    }

    /// The word of a member of the record, by its name in C.
    fn member(&self, name: &str) -> u32 {
        self.board.words()[word_of(name)]
    }

    fn rows(&self) -> Vec<String> {
        rows_of(&self.display, self.board.width())
    }
}

/// The rows of a buffer, a character a pixel: a digit, or a full stop for 0.
fn rows_of(buffer: &[u8], width: usize) -> Vec<String> {
    let character = |&pixel| match pixel {
        0 => '.',
        1..=9 => char::from(b'0' + pixel),
        _ => '?',
    };
    buffer
        .chunks(width)
        .map(|row| row.iter().map(character).collect())
        .collect()
}

/// What a post of one entry answers, on a fresh board.
fn posted(register: Register, word: u32) -> Answer {
    let mut panel = Panel::new();
    panel.put(register, word);
    panel.post()
}

fn project(path: &str) -> String {
    let file = Path::new(env!("CARGO_MANIFEST_DIR"))
        .join("../..")
        .join(path);
    fs::read_to_string(file).expect("the file is there")
}

/// The word of the record that a member of the C header's struct is.
fn word_of(name: &str) -> usize {
    let header = project("include/pramolyt.h");
    let (_, rest) = header
        .split_once(&format!("PRAMOLYT_WORD({name}, "))
        .expect("a member");
    let (word, _) = rest.split_once(')').expect("a word");
    word.parse().expect("a number")
}

/// A register's name on the page, and in C after `PRAMOLYT_`.
fn name_of(register: Register) -> String {
    format!("{register:?}").to_uppercase()
}

// The module against the library.

#[test]
fn an_entry_writes_the_member_of_its_name() {
    for register in Register::ALL {
        let word = match register {
            Register::Cmd => 0x2380_0000,
            Register::Fore | Register::Back | Register::Key => 255,
            Register::Mask => 0,
            Register::Pctrl => 0x2123,
            Register::Xy2 => 0x0800_0800,
            Register::Xy3 => 3,
            _ => u32::MAX,
        };
        let mut panel = Panel::new();
        let fresh = panel.board.words();
        panel.put(register, word);
        assert_eq!(panel.draw(), 0);
        assert_eq!(
            panel.member(&name_of(register).to_lowercase()),
            word,
            "{register:?}"
        );
        let after = panel.board.words();
        let changed = (12..25).filter(|&k| after[k] != fresh[k]).count();
        assert_eq!(changed, 1, "{register:?}");
    }
}

#[test]
fn entries_are_read_back_where_the_library_takes_them() {
    for first in 0..=255 {
        let bytes = [first, 0, 0, 0, 0];
        let mut panel = Panel::new();
        panel.put_bytes(bytes);
        let expected = if Entry::from_bytes(bytes).is_some() {
            DONE
        } else {
            ILLEGAL
        };
        assert_eq!(panel.post(), expected, "first byte {first}");
    }
    for register in Register::ALL {
        let entry = Entry::new(register, 0x1234_5678);
        assert_eq!(entry.to_bytes()[1..], [0x12, 0x34, 0x56, 0x78]);
        assert_eq!(Entry::from_bytes(entry.to_bytes()), Some(entry));
    }
}

#[test]
fn the_limits_of_a_board_are_exact() {
    let made = |width, height, entries| Board::make(width, height, entries).0;
    assert_eq!(made(MAX_SIDE, MAX_SIDE, MAX_ENTRIES), DONE);
    assert_eq!(made(MAX_SIDE + 1, MAX_SIDE, MAX_ENTRIES), Answer::WrongSize);
    assert_eq!(made(MAX_SIDE, MAX_SIDE + 1, MAX_ENTRIES), Answer::WrongSize);
    assert_eq!(made(MAX_SIDE, MAX_SIDE, MAX_ENTRIES + 1), Answer::WrongSize);
}

#[test]
fn an_entry_has_its_bytes() {
    let (_, mut board) = Board::make(1, 1, 3);
    let mut memory = [0; 3 * ENTRY_BYTES + 3];
    for length in 0..memory.len() {
        let expected = if length == 3 * ENTRY_BYTES {
            Answer::PastTheEnd
        } else {
            Answer::WrongSize
        };
        assert_eq!(board.post(&memory[..length], 0, 4), expected);
    }
    for length in 1..2 * ENTRY_BYTES {
        let expected = if length == ENTRY_BYTES {
            DONE
        } else {
            Answer::WrongSize
        };
        let bytes = vec![0; length];
        let stored = board.store(&mut memory[..3 * ENTRY_BYTES], 0, &bytes);
        assert_eq!(stored, expected);
    }
}

#[test]
fn points_come_back_from_the_record() {
    let numbers = [
        i16::MIN,
        -32767,
        -256,
        -2,
        -1,
        0,
        1,
        2,
        255,
        256,
        32766,
        i16::MAX,
    ];
    for x in numbers {
        for y in numbers {
            let mut panel = Panel::new();
            panel.put(Register::Clptl, point(x, y));
            panel.put(Register::Clpbr, point(x, y));
            panel.line(Flags::SOLID, point(x, y), point(x, y));
            assert_eq!(panel.draw(), 1);
            for name in ["clptl", "clpbr", "xy0", "xy1", "last"] {
                let word = panel.member(name);
                assert_eq!(((word >> 16) as i16, word as i16), (x, y), "{name}");
            }
        }
    }
}

#[test]
fn points_are_where_they_are_drawn() {
    let mut panel = Panel::new();
    panel.put(Register::Fore, 7);
    panel.line(Flags::SOLID, point(5, 2), point(5, 2));
    panel.line(Flags::SOLID, point(-2, -1), point(2, 3));
    assert_eq!(panel.draw(), 1 + 5);
    assert_eq!(
        panel.rows(),
        ["........", "7.......", ".7...7..", "..7....."]
    );
}

#[test]
fn a_size_is_width_then_height() {
    let mut panel = Panel::new();
    panel.put(Register::Fore, 4);
    panel.blit(Flags::SOLID, size(3, 2), point(1, 1));
    assert_eq!(panel.draw(), 6);
    assert_eq!(
        panel.rows(),
        ["........", ".444....", ".444....", "........"]
    );
    panel.blit(Flags::SOLID, size(MAX_SIDE, 3), point(0, 0));
    assert_eq!(panel.draw(), 3 * WIDTH);
    panel.blit(
        Flags::SOLID,
        size(MAX_SIDE, MAX_SIDE),
        point(WIDTH as i16, 0),
    );
    assert_eq!(panel.draw(), 0);
    panel.blit(Flags::SOLID, size(0, MAX_SIDE), point(0, 0));
    assert_eq!(panel.draw(), 0);
}

#[test]
fn sizes_past_the_limit_are_illegal() {
    let past = MAX_SIDE as u32 + 1;
    assert_eq!(posted(Register::Xy2, size(MAX_SIDE, MAX_SIDE)), DONE);
    for word in [past << 16, past, ILLEGAL_WORD] {
        assert_eq!(posted(Register::Xy2, word), ILLEGAL);
    }
    for side in [MAX_SIDE + 1, 0x1_0000, usize::MAX] {
        assert_eq!(posted(Register::Xy2, size(side, 0)), ILLEGAL);
        assert_eq!(posted(Register::Xy2, size(0, side)), ILLEGAL);
    }
}

#[test]
fn opcodes_draw_what_they_say() {
    let drawn = [
        (0, ["555.....", "........", "........", "........"]),
        (2, ["555.....", "........", "......5.", "......5."]),
        (6, ["555.....", "555.....", "...555..", "........"]),
        (4, ["555.....", "...55...", ".....5..", "........"]),
    ];
    for (opcode, (visited, rows)) in OPCODES.into_iter().zip(drawn) {
        let mut panel = Panel::new();
        panel.put(Register::Fore, 5);
        panel.line(Flags::SOLID, point(0, 0), point(2, 0));
        assert_eq!(panel.draw(), 3);
        let word = match opcode {
            Opcode::Noop => command(opcode, RasterCode::Clear, Flags::NONE),
            _ => command(opcode, RasterCode::Copy, Flags::SOLID),
        };
        panel.put(Register::Cmd, word);
        panel.put(Register::Xy2, size(1, 2));
        panel.put(Register::Xy0, point(0, 1));
        let at = if opcode == Opcode::Bitblt { 6 } else { 5 };
        panel.put(Register::Xy1, point(at, 2));
        assert_eq!(panel.draw(), visited, "{opcode:?}");
        assert_eq!(panel.rows(), rows, "{opcode:?}");
    }
}

/// The last row of display after a blit from (0, y) of virtual or display, and the pixels visited. Row 0 of virtual has the
/// bits 10110001, row 1 the pixels 1 2 1 4; row 1 of display has 6 6 6 6.
fn blitted(flags: Flags, width: usize, y: i16) -> (usize, String) {
    let mut panel = Panel::new();
    let of_virtual = [0xB1, 0, 0, 0, 0, 0, 0, 0, 1, 2, 1, 4];
    let written =
        panel
            .board
            .window_write(Buffer::Virtual.number(), 0, &of_virtual, &mut panel.virt);
    assert_eq!(written, DONE);
    let written =
        panel
            .board
            .window_write(Buffer::Display.number(), WIDTH, &[6; 4], &mut panel.display);
    assert_eq!(written, DONE);
    panel.put(Register::Fore, 5);
    panel.put(Register::Back, 3);
    panel.put(Register::Key, 1);
    panel.put(Register::Xy0, point(0, y));
    panel.blit(flags, size(width, 1), point(0, 3));
    let visited = panel.draw();
    let mut rows = panel.rows();
    let last = rows.pop().expect("a row");
    assert_eq!(rows, ["........", "6666....", "........"]);
    (visited, last)
}

#[test]
fn flags_of_blits() {
    let bits = Flags::STPL | Flags::SOURCE_VIRTUAL;
    for (flags, width, y, row) in [
        (Flags::NONE, 4, 1, "6666...."),
        (Flags::SOURCE_VIRTUAL, 4, 1, "1214...."),
        (Flags::SOLID, 4, 1, "5555...."),
        (Flags::KEY | Flags::SOURCE_VIRTUAL, 4, 1, ".2.4...."),
        (bits, 8, 0, "53553335"),
        (bits | Flags::TRNSP, 8, 0, "5.55...5"),
    ] {
        assert_eq!(blitted(flags, width, y), (width, row.to_string()));
    }
}

#[test]
fn the_flag_of_the_destination() {
    let mut panel = Panel::new();
    panel.put(Register::Fore, 5);
    let flags = Flags::SOLID.union(Flags::DESTINATION_VIRTUAL);
    panel.blit(flags, size(2, 1), point(3, 1));
    assert_eq!(panel.draw(), 2);
    assert_eq!(panel.display, [0; AREA]);
    let rows = rows_of(&panel.virt, WIDTH);
    assert_eq!(rows, ["........", "...55...", "........", "........"]);
}

#[test]
fn the_flag_of_the_clip() {
    let mut panel = Panel::new();
    panel.put(Register::Fore, 5);
    panel.put(Register::Clptl, point(1, 1));
    panel.put(Register::Clpbr, point(3, 2));
    let mut flags = Flags::SOLID;
    flags |= Flags::CLIP;
    panel.blit(flags, size(WIDTH, HEIGHT), point(0, 0));
    assert_eq!(panel.draw(), 6);
    assert_eq!(
        panel.rows(),
        ["........", ".555....", ".555....", "........"]
    );
}

/// Two lines of the pattern 1 0 and the pixels visited; the second goes on where the first ended.
#[test]
fn flags_of_lines() {
    for (flags, visited, first, second) in [
        (Flags::STPL, 3, "535.....", "353....."),
        (Flags::STPL | Flags::TRNSP, 3, "5.5.....", ".5......"),
        (Flags::SOLID, 3, "555.....", "555....."),
        (Flags::SOLID | Flags::NLST, 2, "55......", "55......"),
        (Flags::STPL | Flags::PRST, 3, "535.....", "535....."),
    ] {
        let mut panel = Panel::new();
        panel.put(Register::Fore, 5);
        panel.put(Register::Back, 3);
        panel.put(Register::Lpat, 1);
        panel.put(Register::Pctrl, pattern(2, 1, 0, 0));
        panel.line(flags, point(0, 0), point(2, 0));
        panel.line(flags, point(0, 1), point(2, 1));
        assert_eq!(panel.draw(), 2 * visited, "{flags:?}");
        assert_eq!(panel.rows()[..2], [first, second], "{flags:?}");
    }
}

/// The raster codes, and what X says that each makes of a source byte and an old byte.
fn codes(s: u8, d: u8) -> [(RasterCode, u8); 16] {
    [
        (RasterCode::Clear, 0),
        (RasterCode::And, s & d),
        (RasterCode::AndReverse, s & !d),
        (RasterCode::Copy, s),
        (RasterCode::AndInverted, !s & d),
        (RasterCode::Noop, d),
        (RasterCode::Xor, s ^ d),
        (RasterCode::Or, s | d),
        (RasterCode::Nor, !s & !d),
        (RasterCode::Equiv, !s ^ d),
        (RasterCode::Invert, !d),
        (RasterCode::OrReverse, s | !d),
        (RasterCode::CopyInverted, !s),
        (RasterCode::OrInverted, !s | d),
        (RasterCode::Nand, !s | !d),
        (RasterCode::Set, 0xFF),
    ]
}

#[test]
fn raster_codes_are_those_of_their_names() {
    let (s, d) = (0x0F, 0x33);
    for (code, byte) in codes(s, d) {
        let mut panel = Panel::new();
        panel.display.fill(d);
        panel.put(Register::Fore, s.into());
        panel.put(Register::Cmd, command(Opcode::Bitblt, code, Flags::SOLID));
        panel.put(Register::Xy2, size(1, 1));
        panel.put(Register::Xy1, point(0, 0));
        assert_eq!(panel.draw(), 1);
        assert_eq!(panel.display[..2], [byte, d], "{code:?}");
    }
}

/// The order in which a blit of 3 by 2 visits its pixels, as rows of numbers from 1 on, and where the corner that XY1 names
/// lies among them, as column and row.
fn order(direction: u32) -> (Vec<Vec<u32>>, (usize, usize)) {
    let mut panel = Panel::new();
    panel.put(Register::Xy3, direction);
    panel.put(Register::Fore, 1);
    panel.blit(Flags::SOLID, size(3, 2), point(4, 2));
    assert_eq!(panel.post(), DONE);
    panel.run(panel.count as u64);
    let mut found = Vec::new();
    for number in 1..=6 {
        let before = panel.display.clone();
        panel.run(1);
        let at = (0..AREA).find(|&k| panel.display[k] != before[k]);
        let at = at.expect("a pixel is drawn");
        found.push((at % WIDTH, at / WIDTH, number));
    }
    let left = found.iter().map(|pixel| pixel.0).min().expect("pixels");
    let top = found.iter().map(|pixel| pixel.1).min().expect("pixels");
    let mut rows = vec![vec![0; 3]; 2];
    for (x, y, number) in found {
        rows[y - top][x - left] = number;
    }
    (rows, (4 - left, 2 - top))
}

#[test]
fn directions_begin_at_the_corner_of_their_name() {
    let corners = [(0, 0), (0, 1), (2, 0), (2, 1)];
    for (direction, corner) in DIRECTIONS.into_iter().zip(corners) {
        let (rows, named) = order(direction.word());
        assert_eq!(named, corner, "{direction:?}");
        assert_eq!(rows[corner.1][corner.0], 1, "{direction:?}");
    }
    assert_eq!(posted(Register::Xy3, 4), ILLEGAL);
}

#[test]
fn buffers_have_their_numbers() {
    let mut panel = Panel::new();
    assert_eq!(Buffer::Display.number(), pramolyt::DISPLAY);
    assert_eq!(Buffer::Virtual.number(), pramolyt::VIRTUAL);
    let past = Buffer::Virtual.number() + 1;
    let refused = panel.board.window_write(past, 0, &[], &mut panel.virt);
    assert_eq!(refused, Answer::WrongSize);
}

/// The pattern's place and repeat after a line of so many pixels.
fn state_after(pctrl: u32, pixels: i16) -> (u32, u32) {
    let mut panel = Panel::new();
    panel.put(Register::Pctrl, pctrl);
    panel.line(Flags::STPL | Flags::NLST, point(0, 0), point(pixels, 0));
    assert_eq!(panel.draw(), pixels as usize);
    (
        panel.member("pattern_place"),
        panel.member("pattern_repeat"),
    )
}

/// Each length and scale, by where the state goes from its last repeat and its last place.
#[test]
fn patterns_have_their_length_scale_and_start() {
    for length in 1..=MAX_PATTERN_LENGTH {
        for scale in 1..=MAX_PATTERN_SCALE {
            let last = (u32::from(length) - 1, u32::from(scale) - 1);
            let at_last = pattern(length, scale, length - 1, scale - 1);
            assert_eq!(state_after(at_last, 0), last);
            assert_eq!(state_after(at_last, 1), (0, 0));
            let period = i16::from(length) * i16::from(scale);
            assert_eq!(state_after(pattern(length, scale, 0, 0), period - 1), last);
            for word in [
                pattern(length, scale, length, 0),
                pattern(length, scale, 0, scale),
            ] {
                assert_eq!(posted(Register::Pctrl, word), ILLEGAL);
            }
        }
    }
    for (length, scale) in [
        (MAX_PATTERN_LENGTH + 1, 1),
        (MAX_PATTERN_LENGTH, MAX_PATTERN_SCALE + 1),
        (0, 1),
        (1, 0),
    ] {
        let word = pattern(length, scale, 0, 0);
        assert_eq!(posted(Register::Pctrl, word), ILLEGAL);
    }
}

#[test]
fn the_illegal_word_is_illegal() {
    for register in [Register::Cmd, Register::Pctrl, Register::Xy2] {
        assert_eq!(posted(register, ILLEGAL_WORD), ILLEGAL);
    }
}

// The page against the module and the library.

/// The page from a heading to the next one.
fn section(heading: &str) -> String {
    let page = project("docs/FORMAT.md");
    let mut lines = page.lines().skip_while(|&line| line != heading).skip(1);
    let mut found = String::new();
    for line in &mut lines {
        if line.starts_with('#') {
            break;
        }
        found.push_str(line);
        found.push('\n');
    }
    assert!(!found.is_empty(), "{heading}");
    found
}

/// The rows of the section's table whose first column has this title.
fn table(heading: &str, title: &str) -> Vec<Vec<String>> {
    let section = section(heading);
    let (_, rest) = section
        .split_once(&format!("\n\n| {title} |"))
        .expect("the table is there");
    let rows = rest
        .lines()
        .skip(2)
        .take_while(|line| line.starts_with('|'));
    let cells = |line: &str| {
        let line = line.trim_matches('|');
        line.split('|')
            .map(|cell| cell.trim().to_string())
            .collect()
    };
    rows.map(cells).collect()
}

/// The section's blocks between lines of three backquotes.
fn blocks(heading: &str) -> Vec<String> {
    let section = section(heading);
    let parts: Vec<&str> = section.split("```\n").collect();
    assert!(parts.len() % 2 == 1, "{heading}");
    let inner = parts.iter().skip(1).step_by(2);
    inner.map(|block| block.to_string()).collect()
}

/// A field and its bits, highest and lowest.
type Field = (String, u32, u32);

/// The fields of a picture: a line of bit numbers, a border, a line of names between bars.
fn picture(heading: &str) -> Vec<Field> {
    let blocks = blocks(heading);
    let mut lines = blocks[0].lines();
    let numbers = lines.next().expect("bit numbers");
    let border = lines.next().expect("a border");
    let names = lines.next().expect("names");
    let ends: Vec<usize> = border.match_indices('+').map(|(k, _)| k).collect();
    let mut fields = Vec::new();
    for pair in ends.windows(2) {
        let end = pair[1].min(numbers.len());
        let inside = numbers[pair[0]..end].split_whitespace();
        let bits: Vec<u32> = inside.map(|n| n.parse().expect("a number")).collect();
        let name = names[pair[0] + 1..pair[1]].trim().to_string();
        let high = *bits.first().expect("a number over each field");
        fields.push((name, high, *bits.last().expect("a number")));
    }
    fields
}

/// The fields of a table of bits.
fn bit_table(heading: &str) -> Vec<Field> {
    let mut fields = Vec::new();
    for row in table(heading, "bits") {
        let (high, low) = row[0].split_once("..").unwrap_or((&row[0], &row[0]));
        let bit = |text: &str| text.parse().expect("a bit");
        fields.push((row[1].clone(), bit(high), bit(low)));
    }
    fields
}

/// The bits of a field, all set.
fn ones((_, high, low): &Field) -> u32 {
    (u32::MAX >> (31 - (high - low))) << low
}

fn number(text: &str) -> u32 {
    text.parse().expect("a number")
}

#[test]
fn the_page_draws_an_entry() {
    let expected = [("register", 39, 35), ("0", 34, 32), ("word", 31, 0)];
    let expected = expected.map(|(name, high, low)| (name.to_string(), high, low));
    assert_eq!(picture("## An entry"), expected);
    let bytes = Entry::new(Register::Xy1, 0x1234_5678).to_bytes();
    let whole = bytes
        .iter()
        .fold(0, |all: u64, &byte| all << 8 | u64::from(byte));
    assert_eq!(whole >> 35, u64::from(Register::Xy1.number()));
    assert_eq!((whole >> 32) % 8, 0);
    assert_eq!(whole as u32, 0x1234_5678);
}

#[test]
fn the_page_has_the_registers() {
    let rows = table("## The registers", "number");
    assert_eq!(rows.len(), Register::ALL.len());
    let fresh = Panel::new();
    for (row, register) in rows.iter().zip(Register::ALL) {
        assert_eq!(number(&row[0]), u32::from(register.number()));
        assert_eq!(row[1], name_of(register));
        assert_eq!(fresh.member(&row[1].to_lowercase()), number(&row[4]));
    }
}

#[test]
fn the_page_has_the_legal_words() {
    for (row, register) in table("## The registers", "number")
        .iter()
        .zip(Register::ALL)
    {
        let (legal, illegal) = match row[3].as_str() {
            "any" => (vec![0, 1 << 31, u32::MAX], vec![]),
            "two halves, each 0 to 2048" => (vec![0, 2048 << 16 | 2048], vec![2049 << 16, 2049]),
            text if text.starts_with("see ") => continue,
            text => {
                let most = number(text.strip_prefix("0 to ").expect("0 to a number"));
                (vec![0, most], vec![most + 1, u32::MAX])
            }
        };
        for word in legal {
            assert_eq!(posted(register, word), DONE, "{register:?} {word}");
        }
        for word in illegal {
            assert_eq!(posted(register, word), ILLEGAL, "{register:?} {word}");
        }
    }
}

#[test]
fn the_page_has_the_bits_of_cmd() {
    let fields = bit_table("## CMD");
    assert_eq!(picture("## CMD"), fields);
    let [opcode, code, flags @ .., zero] = &fields[..] else {
        panic!("too few fields");
    };
    assert_eq!(opcode.0, "opcode");
    assert_eq!(code.0, "code");
    assert_eq!(zero.0, "zero");
    for value in OPCODES {
        let word = command(value, RasterCode::Clear, Flags::NONE);
        assert_eq!(word, (value as u32) << opcode.2);
    }
    let set = command(Opcode::Noop, RasterCode::Set, Flags::NONE);
    assert_eq!(set, ones(code));
    assert_eq!(flags.len(), FLAGS.len());
    for (field, (name, flag)) in flags.iter().zip(FLAGS) {
        assert_eq!((field.0.as_str(), ones(field)), (name, flag.bits()));
    }
    let all = fields.iter().map(ones).sum::<u32>();
    assert_eq!(all, u32::MAX);
}

#[test]
fn the_page_has_the_opcodes() {
    let rows = table("## CMD", "opcode");
    assert_eq!(rows.len(), OPCODES.len());
    for (row, opcode) in rows.iter().zip(OPCODES) {
        assert_eq!(number(&row[0]), opcode as u32);
        assert_eq!(row[1], format!("{opcode:?}").to_uppercase());
    }
}

/// Whether a row of the table of styles allows an opcode with flags.
fn allows(row: &[String], opcode: u32, flags: u32) -> bool {
    let named = OPCODES.into_iter().find(|&known| known as u32 == opcode);
    let named = named.map(|opcode| format!("{opcode:?}").to_uppercase());
    let columns = [
        "SOLID", "STPL", "TRNSP", "KEY", "NLST", "PRST", "SOURCE", "APAT",
    ];
    let fits = |(cell, name): (&String, &str)| {
        let flag = FLAGS.iter().find(|flag| flag.0 == name).expect("a flag").1;
        let set = flags & flag.bits() != 0;
        cell == "-" || cell == if set { "1" } else { "0" }
    };
    row[0]
        .split(", ")
        .any(|name| Some(name) == named.as_deref())
        && row[1..9].iter().zip(columns).all(fits)
}

#[test]
fn the_page_has_the_legal_styles() {
    let rows = table("## CMD", "command");
    let head = "| command | SOLID | STPL | TRNSP | KEY | NLST | PRST | SOURCE | APAT |";
    assert!(section("## CMD").contains(head));
    for high in 0..1 << 18 {
        let word = high << 14;
        let (opcode, flags) = (word >> 28, word & 0x00FF_C000);
        let legal = word == 0 || rows.iter().any(|row| allows(row, opcode, flags));
        let expected = if legal { DONE } else { ILLEGAL };
        assert_eq!(posted(Register::Cmd, word), expected, "CMD {word:08X}");
    }
}

#[test]
fn the_page_has_the_zero_bits_of_cmd() {
    let line = command(Opcode::Line, RasterCode::Copy, Flags::SOLID);
    let zero = bit_table("## CMD").pop().expect("the last field");
    for bit in zero.2..=zero.1 {
        assert_eq!(posted(Register::Cmd, line | 1 << bit), ILLEGAL);
    }
}

#[test]
fn the_page_draws_the_directions() {
    let blocks = blocks("### BITBLT");
    let lines: Vec<&str> = blocks[0].lines().collect();
    let [titles, upper, lower] = lines[..] else {
        panic!("not three lines");
    };
    let title = |name: &str| titles.contains(name);
    assert!(title("XY3 0, upper left") && title("XY3 1, lower left"));
    assert!(title("XY3 2, upper right") && title("XY3 3, lower right"));
    let upper: Vec<&str> = upper.split_whitespace().collect();
    let lower: Vec<&str> = lower.split_whitespace().collect();
    assert_eq!((upper.len(), lower.len()), (12, 12));
    for direction in 0..4 {
        let (rows, corner) = order(direction as u32);
        for (y, line) in [&upper, &lower].into_iter().enumerate() {
            for x in 0..3 {
                let star = if corner == (x, y) { "*" } else { "" };
                let expected = format!("{}{star}", rows[y][x]);
                assert_eq!(line[3 * direction + x], expected, "XY3 {direction}");
            }
        }
    }
}

/// A part of a picture moved by (dx, dy) within its buffer, in a direction, is as it was.
fn moves_whole(dx: i16, dy: i16, direction: Direction) -> bool {
    let mut panel = Panel::new();
    panel.display = (1..=AREA as u8).collect();
    let before = panel.display.clone();
    let (right, lower) = match direction {
        Direction::UpperLeft => (0, 0),
        Direction::LowerLeft => (0, 1),
        Direction::UpperRight => (5, 0),
        Direction::LowerRight => (5, 1),
    };
    let (x, y) = (1 + right, 1 + lower);
    panel.put(Register::Xy3, direction.word());
    panel.put(Register::Xy0, point(x, y));
    panel.blit(Flags::NONE, size(6, 2), point(x + dx, y + dy));
    panel.draw();
    let pixel = |x: i16, y: i16| WIDTH * y as usize + x as usize;
    let cells = (1..7).flat_map(|x| (1..3).map(move |y| (x, y)));
    let mut cells = cells.map(|(x, y)| (pixel(x, y), pixel(x + dx, y + dy)));
    cells.all(|(from, to)| panel.display[to] == before[from])
}

#[test]
fn the_page_says_how_to_move_a_part() {
    for dy in -1..=1 {
        for dx in -1..=1 {
            let direction = if (dy, dx) > (0, 0) {
                Direction::LowerRight
            } else {
                Direction::UpperLeft
            };
            assert!(moves_whole(dx, dy, direction), "by {dx} {dy}");
        }
    }
    assert!(!moves_whole(1, 0, Direction::UpperLeft));
    assert!(!moves_whole(0, -1, Direction::LowerRight));
}

#[test]
fn the_page_has_the_bits_of_pctrl() {
    let fields = bit_table("### PCTRL");
    assert_eq!(picture("### PCTRL"), fields);
    let names: Vec<&str> = fields.iter().map(|field| field.0.as_str()).collect();
    assert_eq!(names, ["zero", "SSCL", "SPTR", "PSCL", "PLEN"]);
    let [zero, sscl, sptr, pscl, plen] = &fields[..] else {
        panic!("not five fields");
    };
    assert_eq!(pattern(32, 1, 0, 0), 0);
    assert_eq!(pattern(31, 1, 0, 0), ones(plen));
    assert_eq!(pattern(32, 8, 0, 0), ones(pscl));
    assert_eq!(pattern(32, 1, 31, 0), ones(sptr));
    assert_eq!(pattern(32, 8, 0, 7), ones(pscl) | ones(sscl));
    for bit in zero.2..=zero.1 {
        assert_eq!(posted(Register::Pctrl, 1 << bit), ILLEGAL);
    }
}

#[test]
fn the_page_has_the_bits_of_a_pattern() {
    let text = section("### PCTRL");
    assert!(text.contains("LPAT 5 and PCTRL 0x2123 (length 3, scale 2, place 1, repeat 1)"));
    assert_eq!(pattern(3, 2, 1, 1), 0x2123);
    let (_, rest) = text.split_once("takes the bits `").expect("bits");
    let (bits, _) = rest.split_once('`').expect("the bits end");
    let mut panel = Panel::new();
    panel.put(Register::Fore, 1);
    panel.put(Register::Lpat, 5);
    panel.put(Register::Pctrl, 0x2123);
    panel.line(Flags::STPL, point(0, 0), point(6, 0));
    assert_eq!(panel.draw(), 7);
    let drawn: Vec<String> = panel.display[..7].iter().map(u8::to_string).collect();
    assert_eq!(drawn.join(" "), bits);
}

#[test]
fn the_pattern_is_set_and_moves_as_the_page_says() {
    let mut panel = Panel::new();
    let mut state_after = |put: &dyn Fn(&mut Panel)| {
        put(&mut panel);
        panel.draw();
        (
            panel.member("pattern_place"),
            panel.member("pattern_repeat"),
        )
    };
    let line = |flags| move |panel: &mut Panel| panel.line(flags, point(0, 0), point(2, 0));
    let hidden = |panel: &mut Panel| panel.line(Flags::STPL, point(0, -9), point(2, -9));
    let start = |panel: &mut Panel| panel.put(Register::Pctrl, pattern(9, 2, 1, 0));
    let bits = |panel: &mut Panel| panel.put(Register::Lpat, 5);
    assert_eq!(state_after(&start), (1, 0));
    assert_eq!(state_after(&line(Flags::STPL)), (2, 1));
    assert_eq!(state_after(&line(Flags::SOLID)), (2, 1));
    assert_eq!(state_after(&bits), (2, 1));
    assert_eq!(state_after(&hidden), (4, 0));
    assert_eq!(state_after(&line(Flags::STPL | Flags::TRNSP)), (5, 1));
    assert_eq!(state_after(&line(Flags::SOLID | Flags::PRST)), (1, 0));
    assert_eq!(state_after(&line(Flags::STPL)), (2, 1));
    assert_eq!(state_after(&start), (1, 0));
}

#[test]
fn the_last_point_is_as_the_page_says() {
    let mut panel = Panel::new();
    assert_eq!(panel.member("last"), point(0, 0));
    panel.line(Flags::SOLID | Flags::NLST, point(0, 0), point(3, 1));
    panel.draw();
    assert_eq!(panel.member("last"), point(3, 1));
    panel.put(Register::Cmd, 0);
    panel.put(Register::Xy1, point(6, 2));
    panel.draw();
    assert_eq!(panel.member("last"), point(3, 1));
    panel.put(Register::Xy3, Direction::LowerRight.word());
    panel.blit(Flags::SOLID, size(2, 2), point(5, 3));
    panel.draw();
    assert_eq!(panel.member("last"), point(5, 3));
}

/// The entries of the page's list, and what it says of each.
fn whole_list() -> [(Entry, &'static str); 10] {
    let bar = command(Opcode::Bitblt, RasterCode::Copy, Flags::SOLID);
    let dashes = command(Opcode::Line, RasterCode::Copy, Flags::TRNSP | Flags::STPL);
    [
        (Entry::new(Register::Fore, 1), "1"),
        (Entry::new(Register::Cmd, bar), "BITBLT, code 3, SOLID"),
        (Entry::new(Register::Xy2, size(12, 3)), "12 by 3"),
        (
            Entry::new(Register::Xy1, point(2, 1)),
            "(2, 1): the bar, 36 pixels",
        ),
        (Entry::new(Register::Fore, 2), "2"),
        (Entry::new(Register::Lpat, 0b101), "bits 1 0 1"),
        (
            Entry::new(Register::Pctrl, pattern(3, 2, 0, 0)),
            "length 3, scale 2",
        ),
        (
            Entry::new(Register::Cmd, dashes),
            "LINE, code 3, TRNSP and STPL",
        ),
        (Entry::new(Register::Xy0, point(-2, 0)), "(-2, 0)"),
        (
            Entry::new(Register::Xy1, point(15, 5)),
            "(15, 5): the line, 18 pixels",
        ),
    ]
}

#[test]
fn the_page_draws_its_list() {
    let text = section("## A whole list");
    let blocks = blocks("## A whole list");
    let [list, picture] = &blocks[..] else {
        panic!("not two blocks");
    };
    assert!(text.contains("Ten entries for a board of 16 by 6"));
    let mut panel = Panel::of_size(16, 6);
    let mut expected = String::new();
    for (entry, about) in whole_list() {
        panel.put(entry.register, entry.word);
        let hex = entry.to_bytes().map(|byte| format!("{byte:02X}")).join(" ");
        expected += &format!("{hex}   {:<7}{about}\n", name_of(entry.register));
    }
    assert_eq!(*list, expected);
    let steps = panel.count + panel.draw();
    assert_eq!(steps, 10 + 36 + 18);
    assert!(text.contains(&format!("it takes {steps} steps")), "{steps}");
    assert_eq!(panel.rows(), picture.lines().collect::<Vec<&str>>());
}

/// A field of a group of edition 2.
fn field_of(group: &[u8], (_, high, low): &Field) -> u32 {
    let bits = group
        .iter()
        .fold(0, |all: u128, &byte| all << 8 | u128::from(byte));
    (bits >> low & ((1 << (high - low + 1)) - 1)) as u32
}

/// The line of a group: its fields in hexadecimal, and the names of its entries.
fn group_line(group: &[u8], entries: &[(Entry, &str)]) -> String {
    let hex = |bytes: &[u8]| {
        let bytes: Vec<String> = bytes.iter().map(|byte| format!("{byte:02X}")).collect();
        bytes.join(" ")
    };
    let words = group[2..].chunks(4).map(hex);
    let names: Vec<String> = entries.iter().map(|e| name_of(e.0.register)).collect();
    let columns: Vec<String> = [hex(&group[..2])]
        .into_iter()
        .chain(words)
        .chain([names.join(", ")])
        .collect();
    columns.join("   ")
}

#[test]
fn the_page_draws_a_group() {
    const HEADING: &str = "## The list file, edition 2";
    let fields = picture(HEADING);
    let names: Vec<&str> = fields.iter().map(|field| field.0.as_str()).collect();
    let registers = ["register a", "register b", "register c"];
    assert_eq!(
        names,
        [&["0"], &registers[..], &["word a", "word b", "word c"]].concat()
    );
    let (entries, text, blocks) = (whole_list(), section(HEADING), blocks(HEADING));
    let list = entries.map(|(entry, _)| entry.to_bytes()).concat();
    let mut file = vec![0; packed_size(entries.len())];
    assert_eq!(pack(&list, &mut file).ok(), Ok(file.len()));
    assert!(text.contains(&format!(
        "{} bytes, and {} in edition 1",
        file.len(),
        list.len()
    )));
    let mut lines = blocks[1].lines();
    for (group, present) in file.chunks(14).zip(entries.chunks(3)) {
        assert_eq!(lines.next(), Some(group_line(group, present).as_str()));
        assert_eq!(field_of(group, &fields[0]), 0);
        for k in 0..3 {
            let expected = present.get(k).map_or((31, 0), |(entry, _)| {
                (u32::from(entry.register.number()), entry.word)
            });
            let found = (
                field_of(group, &fields[1 + k]),
                field_of(group, &fields[4 + k]),
            );
            assert_eq!(found, expected);
        }
    }
    assert_eq!(lines.next(), None);
}

#[test]
fn the_page_has_the_sizes_of_files() {
    let text = section("## The list file, edition 2").replace('\n', " ");
    assert!(text.contains("4,096 entries take 19,124 bytes in place of 20,480"));
    assert_eq!(
        (packed_size(MAX_ENTRIES), list_size(MAX_ENTRIES)),
        (19_124, 20_480)
    );
    let list = Entry::new(Register::Lpat, 1)
        .to_bytes()
        .repeat(MAX_ENTRIES + 1);
    let (mut file, mut back) = (vec![0; 20_000], vec![0; list.len()]);
    let most = &list[..list_size(MAX_ENTRIES)];
    assert_eq!(pack(&list, &mut file), FileAnswer::TooMany);
    assert_eq!(pack(most, &mut file).ok(), Ok(19_124));
    assert_eq!(unpack(&file[..19_124], &mut back).ok(), Ok(20_480));
}

#[test]
fn the_page_has_the_bytes_of_a_picture() {
    let mut panel = Panel::new();
    let line = command(Opcode::Line, RasterCode::Copy, Flags::SOLID);
    panel.put(Register::Fore, 7);
    panel.put(Register::Cmd, line);
    panel.put(Register::Xy1, point(4, 2));
    panel.draw();
    let mut output = [0; picture_max(WIDTH, HEIGHT)];
    let written = panel.board.export(DISPLAY, &panel.display, &mut output);
    let picture = &output[..written.expect("an export")];
    let block = &blocks("## Pictures")[0];
    let hex = block.lines().map(|line| line.split("    ").next());
    let bytes = hex.flat_map(|bytes| bytes.expect("bytes").split(' '));
    let bytes: Vec<u8> = bytes
        .map(|byte| u8::from_str_radix(byte, 16).expect("a byte"))
        .collect();
    assert_eq!((picture, picture.len()), (&bytes[..], 43));
    let text = section("## Pictures");
    assert!(text.contains("takes 43 bytes, the\nfirst 11 of them its header"));
}

#[test]
fn the_page_says_which_headers_are_read() {
    let rows = table("## Pictures", "header");
    assert_eq!(rows.len(), 6);
    for row in rows {
        let header = row[0].trim_matches('`').replace("\\n", "\n");
        let picture = [header.as_bytes(), &[200; 32]].concat();
        let (made, mut board) = Board::make(16, 2, 1);
        assert_eq!(made, DONE);
        let answer = board.import(VIRTUAL, &picture, &mut [0; 32]);
        let expected = match row[1].starts_with("no picture") {
            true => Answer::NotAPicture,
            false => DONE,
        };
        assert_eq!(answer, expected, "{header:?}");
    }
}

/// Whether a stippled blit draws at bit position (x, 0), with one bit of one byte of row 0 set.
fn bit_is_read(x: i16, byte: usize, bit: u32) -> bool {
    let mut panel = Panel::new();
    panel.virt[byte] = 1 << bit;
    panel.put(Register::Fore, 5);
    panel.put(Register::Xy0, point(x, 0));
    panel.blit(Flags::STPL | Flags::SOURCE_VIRTUAL, size(1, 1), point(0, 0));
    assert_eq!(panel.draw(), 1);
    panel.display[0] == 5
}

#[test]
fn the_page_draws_the_bits_of_a_row() {
    let blocks = blocks("### Text");
    let lines: Vec<&str> = blocks[0].lines().collect();
    let [bytes, positions, bits] = lines[..] else {
        panic!("not three lines");
    };
    let second = bytes.find("byte 1").expect("byte 1");
    assert!(bytes.starts_with("byte 0 of row y"));
    let digits = |line: &str| -> Vec<(usize, u32)> {
        let digit = |(at, letter): (usize, char)| Some((at, letter.to_digit(10)?));
        line.char_indices().filter_map(digit).collect()
    };
    let (positions, bits) = (digits(positions), digits(bits));
    assert_eq!((positions.len(), bits.len()), (10, 10));
    for (k, (x, bit)) in positions.into_iter().zip(bits).enumerate() {
        assert_eq!((x.0, x.1 as usize), (bit.0, k));
        let byte = usize::from(x.0 >= second);
        assert!(bit_is_read(x.1 as i16, byte, bit.1), "bit {}", x.1);
    }
}

/// A blit of 18 by 8 at (3, 2) from a tile at (x, y) of the virtual buffer, on a board of 24 by 11: the pixels visited and the
/// rows. Outside the tile the virtual buffer has 7s.
fn tiled(tile: &str, x: i16, y: i16) -> (usize, Vec<String>) {
    let mut panel = Panel::of_size(24, 11);
    panel.virt.fill(7);
    for (row, line) in tile.lines().enumerate() {
        let pixel = |letter: char| letter.to_digit(10).unwrap_or(0) as u8;
        let pixels: Vec<u8> = line.chars().map(pixel).collect();
        let at = 24 * (y as usize + row) + x as usize;
        panel.virt[at..at + pixels.len()].copy_from_slice(&pixels);
    }
    panel.put(Register::Xy0, point(x, y));
    panel.blit(
        Flags::APAT | Flags::SOURCE_VIRTUAL,
        size(18, 8),
        point(3, 2),
    );
    (panel.draw(), panel.rows())
}

#[test]
fn the_page_draws_a_tile() {
    let text = section("### Tiles");
    let blocks = blocks("### Tiles");
    let [tile, picture] = &blocks[..] else {
        panic!("not two blocks");
    };
    assert!(tile.lines().count() == 8 && tile.lines().all(|line| line.len() == 16));
    assert!(text.contains("A blit of 18 by 8 at (3, 2) on a board of 24 by 11"));
    for (x, y) in [(0, 0), (5, 1), (8, 3)] {
        let (visited, rows) = tiled(tile, x, y);
        assert_eq!(visited, 18 * 8);
        assert_eq!(rows, picture.lines().collect::<Vec<&str>>(), "{x}, {y}");
    }
}

#[test]
fn a_tile_not_wholly_inside_draws_nothing() {
    for (x, y) in [(9, 0), (0, 4)] {
        let (visited, rows) = tiled("", x, y);
        assert_eq!(visited, 18 * 8);
        assert!(rows.iter().all(|row| row == &".".repeat(24)));
    }
}

#[test]
fn the_page_has_the_limits() {
    let text = section("## An entry");
    assert!(text.contains(&format!("An entry is {ENTRY_BYTES} bytes.")));
    assert_eq!(MAX_ENTRIES, 4096);
    assert!(text.contains("1 to 4,096 entries"));
}

/// A name as the header has it: AND_REVERSE for AndReverse.
fn in_c(name: impl std::fmt::Debug) -> String {
    let mut found = String::new();
    for (k, letter) in format!("{name:?}").char_indices() {
        if k > 0 && letter.is_uppercase() {
            found.push('_');
        }
        found.extend(letter.to_uppercase());
    }
    found
}

/// The limits, by their names in C.
fn limits() -> [(&'static str, usize); 5] {
    [
        ("ENTRY_BYTES", ENTRY_BYTES),
        ("MAX_ENTRIES", MAX_ENTRIES),
        ("MAX_SIDE", MAX_SIDE),
        ("MAX_PATTERN_LENGTH", MAX_PATTERN_LENGTH.into()),
        ("MAX_PATTERN_SCALE", MAX_PATTERN_SCALE.into()),
    ]
}

/// The other constants of the module, as the header writes them.
fn constants() -> Vec<String> {
    let mut found = Vec::new();
    for register in Register::ALL {
        found.push(format!("{} = {}", in_c(register), register.number()));
    }
    for opcode in OPCODES {
        found.push(format!("{} = {}", in_c(opcode), opcode as u32));
    }
    for (code, _) in codes(0, 0) {
        found.push(format!("GX_{} = {}", in_c(code), code as u32));
    }
    for direction in DIRECTIONS {
        found.push(format!("FROM_{} = {}", in_c(direction), direction.word()));
    }
    for buffer in [Buffer::Display, Buffer::Virtual] {
        found.push(format!("{} = {}", in_c(buffer), buffer.number()));
    }
    for (name, flag) in FLAGS {
        let of_buffer = ["SOURCE", "DESTINATION"].contains(&name);
        let end = if of_buffer { "_VIRTUAL" } else { "" };
        let bit = flag.bits().trailing_zeros();
        found.push(format!("CMD_{name}{end} = 1 << {bit}"));
    }
    found
}

#[test]
fn the_header_has_the_same_constants() {
    let header = project("include/pramolyt_list.h");
    let written: Vec<&str> = header
        .split(|c| "{},\n/".contains(c))
        .filter_map(|part| part.trim().strip_prefix("PRAMOLYT_"))
        .filter(|part| part.contains(" = "))
        .collect();
    assert_eq!(written.len(), constants().len());
    for constant in constants() {
        assert!(written.contains(&constant.as_str()), "{constant}");
    }
    for (name, number) in limits() {
        let line = format!("#define PRAMOLYT_{name} {number} ");
        assert!(header.contains(&line), "{line}");
    }
    assert!(header.contains("#define PRAMOLYT_ILLEGAL_WORD 0xFFFFFFFFu\n"));
    assert_eq!(ILLEGAL_WORD, 0xFFFF_FFFF);
}
