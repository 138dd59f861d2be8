//! Makes a sequence of calls, written as text on standard input, one call a line:
//!
//! ```text
//! make WIDTH HEIGHT ENTRIES
//! store FIRST HEXBYTES...
//! start ENTRY
//! feed HEXBYTES...
//! post START COUNT
//! write NUMBER OFFSET HEXBYTES...
//! export NUMBER LENGTH
//! import NUMBER HEXBYTES...
//! run BUDGET
//! ```
//!
//! The first call is make. It begins a fresh board with zeroed memories of the right
//! sizes, and so does every later make; a refused make begins the 1 by 1 board with
//! 1 entry. Start begins a feed record, and feed gives it a piece; before any start
//! it is the one that starts at entry 0. NUMBER is 0 for the display buffer and 1 for
//! the virtual buffer. Export has an output of LENGTH bytes. Numbers are decimal, or hexadecimal after 0x, below 2^64. HEXBYTES are pairs of
//! hexadecimal digits, with or without blanks between the pairs; there may be none.
//! Blank lines and lines starting with # are skipped.
//!
//! Each call prints its line number, its name, the answer, the place and the steps; an
//! export the bytes written too, and the picture in hexadecimal bytes.
//! The end prints the board record, a field a line and the tile in rows, the feed record,
//! both pictures in rows of hexadecimal bytes, and whether the paper board agreed after
//! every call; status 1 where it did not. A bad line ends the sequence with a message on
//! standard error and status 2.

use reference::text::hex_rows;
use reference::tiles::COLUMNS;
use reference::{Feed, Report, Sequence, NAMES};
use std::io::{Read, Write};
use std::process::ExitCode;

/// An output of this length has room for every picture, and is not made longer.
const LONGEST: u64 = 1 << 23;

fn main() -> ExitCode {
    let mut input = Vec::new();
    if let Err(error) = std::io::stdin().read_to_end(&mut input) {
        eprintln!("standard input: {error}");
        return ExitCode::from(2);
    }
    let (text, status) = match make_calls(&String::from_utf8_lossy(&input)) {
        Ok((text, agrees)) => (text, u8::from(!agrees)),
        Err((text, message)) => {
            eprintln!("{message}");
            (text, 2)
        }
    };
    match std::io::stdout().write_all(text.as_bytes()) {
        Ok(()) => ExitCode::from(status),
        Err(_) => ExitCode::from(2),
    }
}

/// The text and whether the paper board agrees; in the error, the text as far as
/// it goes and the message.
fn make_calls(input: &str) -> Result<(String, bool), (String, String)> {
    let mut text = String::new();
    let mut sequence: Option<Sequence> = None;
    let mut feed = Feed::start(0);
    let mut fault = None;
    for (index, line) in input.lines().enumerate() {
        let words: Vec<&str> = line.split_whitespace().collect();
        if words.is_empty() || words[0].starts_with('#') {
            continue;
        }
        let number = index + 1;
        match make_call(&words, &mut sequence, &mut feed) {
            Ok(outcome) => text.push_str(&format!("{number} {} {outcome}\n", words[0])),
            Err(message) => return Err((text, format!("line {number}: {message}"))),
        }
        let found = sequence.as_ref().and_then(Sequence::fault);
        fault = fault.or_else(|| found.map(|found| format!("line {number}: {found}")));
    }
    let Some(sequence) = sequence else {
        return Err((text, "the input has no call".to_string()));
    };
    text.push_str(&ending(&sequence, &feed));
    match &fault {
        None => text.push_str("paper board agrees\n"),
        Some(fault) => text.push_str(&format!("paper board disagrees: {fault}\n")),
    }
    Ok((text, fault.is_none()))
}

/// Makes the call of one line; what it prints.
fn make_call(
    words: &[&str],
    sequence: &mut Option<Sequence>,
    feed: &mut Feed,
) -> Result<String, String> {
    let (call, arguments) = (words[0], &words[1..]);
    if call == "make" {
        let ([width, height, entries], []) = numbers(call, arguments)? else {
            return Err("make takes three numbers: width, height, entries".to_string());
        };
        let (report, made) = Sequence::make(width, height, entries);
        *sequence = Some(made);
        return Ok(outcome(report));
    }
    let calls = [
        "store", "start", "feed", "post", "write", "export", "import", "run",
    ];
    if !calls.contains(&call) {
        return Err(format!("no call is named {call:?}"));
    }
    let board = sequence.as_mut().ok_or("the first call is make")?;
    let report = match call {
        "store" => {
            let ([first], bytes) = numbers(call, arguments)?;
            board.store(first, &hex_bytes(bytes)?)
        }
        "start" => {
            let ([entry], []) = numbers(call, arguments)? else {
                return Err("start takes one number: entry".to_string());
            };
            *feed = Feed::start(entry);
            Report::plain(0)
        }
        "feed" => board.feed(feed, &hex_bytes(arguments)?),
        "write" => {
            let ([number, offset], bytes) = numbers(call, arguments)?;
            board.window_write(number, offset, &hex_bytes(bytes)?)
        }
        "export" => {
            let ([number, length], []) = numbers(call, arguments)? else {
                return Err("export takes two numbers: number, length".to_string());
            };
            let mut output = vec![0; length.min(LONGEST) as usize];
            let report = board.export(number, &mut output);
            let picture = &output[..report.written as usize];
            return Ok(export_outcome(report, picture));
        }
        "import" => {
            let ([number], picture) = numbers(call, arguments)?;
            board.import(number, &hex_bytes(picture)?)
        }
        "post" => {
            let ([start, count], []) = numbers(call, arguments)? else {
                return Err("post takes two numbers: start, count".to_string());
            };
            board.post(start, count)
        }
        _ => {
            let ([budget], []) = numbers(call, arguments)? else {
                return Err("run takes one number: budget".to_string());
            };
            board.run(budget)
        }
    };
    Ok(outcome(report))
}

/// The first N arguments as numbers, and the arguments after them.
fn numbers<'a, const N: usize>(
    call: &str,
    arguments: &'a [&'a str],
) -> Result<([u64; N], &'a [&'a str]), String> {
    if arguments.len() < N {
        return Err(format!("{call} takes {N} numbers first"));
    }
    let mut values = [0; N];
    for (value, argument) in values.iter_mut().zip(arguments) {
        let parsed = match argument.strip_prefix("0x") {
            Some(digits) => u64::from_str_radix(digits, 16),
            None => argument.parse(),
        };
        *value = parsed.map_err(|_| format!("{argument:?} is no number below 2^64"))?;
    }
    Ok((values, &arguments[N..]))
}

/// Pairs of hexadecimal digits as bytes.
fn hex_bytes(arguments: &[&str]) -> Result<Vec<u8>, String> {
    let mut bytes = Vec::new();
    for argument in arguments {
        let bad = || format!("{argument:?} is not pairs of hexadecimal digits");
        let digits: Option<Vec<u32>> = argument.chars().map(|c| c.to_digit(16)).collect();
        let digits = digits.ok_or_else(bad)?;
        if !digits.len().is_multiple_of(2) {
            return Err(bad());
        }
        bytes.extend(digits.chunks(2).map(|pair| (16 * pair[0] + pair[1]) as u8));
    }
    Ok(bytes)
}

fn outcome(report: Report) -> String {
    let Report {
        number,
        place,
        steps,
        ..
    } = report;
    format!("answer {number} place {place} steps {steps}")
}

/// The outcome of an export, and the picture in a line of its own where there is one.
fn export_outcome(report: Report, picture: &[u8]) -> String {
    let row = hex_rows(picture, picture.len().max(1) as u32);
    let text = format!("{} written {}\n{row}", outcome(report), report.written);
    text.trim_end().to_string()
}

/// The records and both pictures.
fn ending(sequence: &Sequence, feed: &Feed) -> String {
    let record = &sequence.record;
    let mut text = "record\n".to_string();
    for (name, word) in NAMES.iter().zip(record.words()) {
        text.push_str(&format!("{name} {word}\n"));
    }
    text.push_str("tile\n");
    text.push_str(&hex_rows(record.tile.as_flattened(), COLUMNS as u32));
    let Feed { next, held, count } = feed;
    text.push_str(&format!(
        "feed next {next} held {held:02X?} count {count}\n"
    ));
    text.push_str("display\n");
    text.push_str(&hex_rows(&sequence.display, record.width));
    text.push_str("virtual\n");
    text.push_str(&hex_rows(&sequence.virt, record.width));
    text
}
