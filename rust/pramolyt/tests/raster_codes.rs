//! docs/RASTER.md against the library and its code: what each of the sixteen raster codes draws, and where the rule stands.

use pramolyt::{Answer, Board};
use std::fs;
use std::path::{Path, PathBuf};

const WIDTH: usize = 80;
const HEIGHT: usize = 8;
const PIXELS: usize = WIDTH * HEIGHT;

const CMD: u8 = 0;
const FORE: u8 = 1;
const BACK: u8 = 2;
const LPAT: u8 = 5;
const XY2: u8 = 10;
const XY1: u8 = 12;

const BITBLT: u32 = 1 << 28;
const LINE: u32 = 2 << 28;
const SOLID: u32 = 1 << 23;
const STPL: u32 = 1 << 21;
const FROM_VIRTUAL: u32 = 1 << 16;
const APAT: u32 = 1 << 14;

/// The ways of drawing: CMD without its code, and XY1. Each begins at (0, 0); a line ends at XY1.
const WAYS: [(&str, u32, u32); 7] = [
    ("fill", BITBLT | SOLID, 0),
    ("copy", BITBLT | FROM_VIRTUAL, 0),
    ("stipple", BITBLT | STPL | FROM_VIRTUAL, 0),
    ("tile", BITBLT | APAT | FROM_VIRTUAL, 0),
    ("line", LINE | SOLID, 79 << 16 | 4),
    ("level line", LINE | SOLID, 79 << 16),
    ("dashed line", LINE | STPL, 79 << 16 | 4),
];

/// A row of the table.
struct Row {
    code: u8,
    digits: String,
    x_name: String,
    new_byte: u8,
    manual_number: u8,
    manual_name: String,
    function: String,
}

fn hexadecimal(cell: &str) -> u8 {
    let digits = cell.strip_prefix("0x").expect("0x");
    u8::from_str_radix(digits, 16).expect("hexadecimal digits")
}

fn project() -> PathBuf {
    Path::new(env!("CARGO_MANIFEST_DIR")).join("../..")
}

fn page() -> String {
    fs::read_to_string(project().join("docs/RASTER.md")).expect("docs/RASTER.md is there")
}

/// The table's rows: the lines whose first cell is a number.
fn rows() -> Vec<Row> {
    let mut rows = Vec::new();
    for line in page().lines() {
        let cells: Vec<&str> = line.split('|').map(str::trim).collect();
        let Some(Ok(code)) = cells.get(1).map(|cell| cell.parse()) else {
            continue;
        };
        let [_, _, digits, x_name, new_byte, number, name, function, _] = cells[..] else {
            panic!("not seven cells: {line}");
        };
        rows.push(Row {
            code,
            digits: digits.trim_matches('`').to_string(),
            x_name: x_name.to_string(),
            new_byte: hexadecimal(new_byte),
            manual_number: hexadecimal(number),
            manual_name: name.to_string(),
            function: function.to_string(),
        });
    }
    rows
}

/// Eight times the same bit.
fn spread(digit: char) -> u8 {
    match digit {
        '0' => 0x00,
        '1' => 0xFF,
        _ => panic!("not a binary digit: {digit}"),
    }
}

fn entry(register: u8, data: u32) -> [u8; 5] {
    let [a, b, c, d] = data.to_be_bytes();
    [register << 3, a, b, c, d]
}

/// The display after a code has drawn a source byte over old bytes, one way, in runs of `budget` steps, and how many
/// pixels were visited. FORE, BACK and the virtual buffer hold the source byte, so that every pixel's source is that byte.
fn drawn(way: (&str, u32, u32), code: u8, source: u8, old: u8, budget: u64) -> (Vec<u8>, usize) {
    let (_, command, end) = way;
    let list: Vec<u8> = [
        entry(FORE, source.into()),
        entry(BACK, source.into()),
        entry(LPAT, 0x0F3C_55A7),
        entry(CMD, command | u32::from(code) << 24),
        entry(XY2, (WIDTH as u32) << 16 | HEIGHT as u32),
        entry(XY1, end),
    ]
    .concat();
    let entries = list.len() / 5;
    let (made, mut board) = Board::make(WIDTH, HEIGHT, entries);
    assert_eq!(made, Answer::Done { steps: 0 });
    assert_eq!(board.post(&list, 0, entries), Answer::Done { steps: 0 });
    let (mut display, mut virt) = ([old; PIXELS], [source; PIXELS]);
    let mut total = 0;
    while !board.is_idle() {
        match board.run(budget, &list, &mut display, &mut virt) {
            Answer::Done { steps } => total += steps,
            refused => panic!("{refused:?}"),
        }
    }
    assert_eq!(virt, [source; PIXELS]);
    (display.to_vec(), total as usize - entries)
}

/// The byte that a code draws: the same by every way, in one run and step by step, in every visited pixel and no other.
fn new_byte(code: u8, source: u8, old: u8) -> u8 {
    let mut found = None;
    for way in WAYS {
        for budget in [u64::MAX, 1] {
            let (display, visited) = drawn(way, code, source, old, budget);
            let new = *found.get_or_insert(display[0]);
            let drawn = display.iter().filter(|&&byte| byte == new).count();
            let kept = display.iter().filter(|&&byte| byte == old).count();
            let expected = if new == old {
                (PIXELS, PIXELS)
            } else {
                (visited, PIXELS - visited)
            };
            assert_eq!((drawn, kept), expected, "{} in code {code}", way.0);
        }
    }
    found.expect("there are ways")
}

/// The manual's function of a row as a formula, for a source byte and a destination byte.
fn value(formula: &str, source: u8, destination: u8) -> u8 {
    let formula = formula.to_lowercase().replace(['(', ')'], "");
    let operand = |text: &str| {
        let (not, name) = match text.strip_prefix("not ") {
            Some(name) => (0xFF, name),
            None => (0x00, text),
        };
        let byte = match name {
            "source" => source,
            "destination" => destination,
            "0 zero" => 0x00,
            "1 one" => 0xFF,
            _ => panic!("not an operand: {text}"),
        };
        byte ^ not
    };
    if let Some((a, b)) = formula.split_once(" and ") {
        operand(a) & operand(b)
    } else if let Some((a, b)) = formula.split_once(" or ") {
        operand(a) | operand(b)
    } else if let Some((a, b)) = formula.split_once(" xor ") {
        operand(a) ^ operand(b)
    } else {
        operand(&formula)
    }
}

#[test]
fn the_table_has_the_sixteen_codes_in_order() {
    let codes: Vec<u8> = rows().iter().map(|row| row.code).collect();
    assert_eq!(codes, Vec::from_iter(0..16));
}

#[test]
fn the_new_byte_is_drawn() {
    for row in rows() {
        assert_eq!(
            new_byte(row.code, 0x0F, 0x33),
            row.new_byte,
            "code {}",
            row.code
        );
    }
}

#[test]
fn the_digits_are_drawn() {
    for row in rows() {
        assert_eq!(row.digits.len(), 4, "code {}", row.code);
        let pairs = [(0x00, 0x00), (0x00, 0xFF), (0xFF, 0x00), (0xFF, 0xFF)];
        for ((source, old), digit) in pairs.into_iter().zip(row.digits.chars()) {
            let new = new_byte(row.code, source, old);
            assert_eq!(new, spread(digit), "code {} {source} {old}", row.code);
        }
    }
}

#[test]
fn the_manual_numbers_run_the_other_way_round() {
    for row in rows() {
        let reversed: String = row.digits.chars().rev().collect();
        let number = u8::from_str_radix(&reversed, 2).expect("binary digits");
        assert_eq!(number, row.manual_number, "code {}", row.code);
    }
}

#[test]
fn the_manual_functions_are_drawn() {
    for row in rows() {
        let new = value(&row.function, 0x0F, 0x33);
        assert_eq!(new_byte(row.code, 0x0F, 0x33), new, "code {}", row.code);
    }
}

#[test]
fn both_have_the_same_names() {
    for row in rows() {
        assert_eq!(
            row.x_name,
            format!("GX{}", row.manual_name),
            "code {}",
            row.code
        );
    }
}

/// The sources of every crate, by their path.
fn sources() -> Vec<(PathBuf, String)> {
    let mut found = Vec::new();
    for name in fs::read_dir(project().join("crates")).expect("there are crates") {
        let folder = name.expect("a crate").path().join("src");
        for file in fs::read_dir(folder).expect("a crate has sources") {
            let path = file.expect("a source").path();
            let text = fs::read_to_string(&path).expect("a source is text");
            found.push((path, text));
        }
    }
    found
}

#[test]
fn the_rule_stands_once_in_the_code_as_quoted() {
    let page = page();
    let (_, quoted) = page
        .split_once("```rust\n")
        .expect("the page quotes the rule");
    let (rule, _) = quoted.split_once('\n').expect("the quotation ends");
    let mut places = Vec::new();
    for (path, text) in sources() {
        for _ in text.matches(rule) {
            places.push(path.clone());
        }
    }
    let [place] = &places[..] else {
        panic!("the rule stands at {places:?}");
    };
    assert!(place.ends_with("crates/raster/src/lib.rt"), "{place:?}");
}
