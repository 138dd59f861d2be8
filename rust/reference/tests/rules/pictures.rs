//! "Pictures for the office" (document 02, R-9), sentence by sentence.

use crate::common::*;
use reference::pictures::picture;
use reference::{export, import, make, Record, Report};

const WIDTH: u64 = 16;
const HEIGHT: u64 = 2;
const AREA: usize = 32;
/// What an export of such a board has before its pixels.
const HEADER: &str = "P5\n16 2\n255\n";

/// A board of 16 by 2, idle.
fn idle() -> Record {
    make(WIDTH, HEIGHT, 4).1
}

/// The same with an empty list in the active slot.
fn held() -> Record {
    let mut record = idle();
    assert_eq!(reference::post(&mut record, &[0; 20], 1, 1), plain(0));
    record
}

/// Pixels of which none is white space, a digit or a #.
fn pixels() -> Vec<u8> {
    (0x80..0x80 + AREA as u8).collect()
}

/// A picture with this header.
fn with(header: &str) -> Vec<u8> {
    [header.as_bytes(), &pixels()].concat()
}

/// The answer to an import, which leaves the record, and the pixels that it leaves where it
/// is done. In a refusal all stays.
fn outcome(record: &Record, number: u64, picture: &[u8]) -> (u32, Option<Vec<u8>>) {
    let (mut given, mut buffer) = (*record, vec![0xA5; AREA]);
    let report = import(&mut given, number, picture, &mut buffer);
    assert_eq!((report, given), (plain(report.number), *record));
    if report.number == 0 {
        return (0, Some(buffer));
    }
    assert_eq!(buffer, [0xA5; AREA]);
    (report.number, None)
}

fn reads(picture: &[u8]) -> bool {
    match outcome(&idle(), 0, picture) {
        (0, Some(_)) => true,
        (11, None) => false,
        other => panic!("{other:?}"),
    }
}

/// The headers before [`pixels`] that are read and those that are not.
fn headers(good: &[&str], bad: &[&str]) {
    for header in good {
        assert_eq!(
            outcome(&idle(), 1, &with(header)),
            (0, Some(pixels())),
            "{header:?}"
        );
    }
    for header in bad {
        assert!(!reads(&with(header)), "{header:?}");
    }
}

/// "Export writes either buffer as binary PGM (Netpbm P5), numbers unpadded: P5, newline,
/// width, space, height, newline, 255, newline, then the pixels."
#[test]
fn an_export_is_header_and_pixels() {
    for number in 0..2 {
        let mut output = [0xA5; 50];
        let report = export(&mut idle(), number, &pixels(), &mut output);
        assert_eq!((report.number, report.written), (0, 44));
        assert_eq!(output[..44], with(HEADER));
        assert_eq!(output[44..], [0xA5; 6]);
    }
    for (width, height, header) in [
        (1, 1, "P5\n1 1\n255\n"),
        (9, 10, "P5\n9 10\n255\n"),
        (100, 99, "P5\n100 99\n255\n"),
        (2_048, 1_000, "P5\n2048 1000\n255\n"),
    ] {
        let pixels = vec![7; width * height];
        let mut output = vec![0; header.len() + pixels.len()];
        let mut record = make(width as u64, height as u64, 1).1;
        let report = export(&mut record, 0, &pixels, &mut output);
        let written = output.len() as u64;
        assert_eq!(
            report,
            Report {
                written,
                ..plain(0)
            }
        );
        assert_eq!(output, [header.as_bytes(), &pixels].concat());
    }
}

/// "For 8 by 4 that is 43 bytes."
#[test]
fn of_8_by_4_43_bytes() {
    let mut board = board(8, 4, 16);
    assert_eq!(board.export(0, &mut [0; 43]).written, 43);
    assert_eq!(picture(8, 4, &[0; 32]).len(), 43);
}

/// "4 exactly where the output is shorter than the picture needs"
#[test]
fn an_output_that_is_too_short_is_4() {
    for length in 0..60 {
        let mut output = vec![0xA5; length];
        let report = export(&mut idle(), 0, &pixels(), &mut output);
        if length < 44 {
            assert_eq!((report, output), (plain(4), vec![0xA5; length]));
        } else {
            assert_eq!((report.number, report.written), (0, 44));
        }
    }
}

/// "2 for board buffers", and the order of an export's grounds.
#[test]
fn an_exports_grounds() {
    let malformed = Record { width: 0, ..idle() };
    for (record, number, size, room, answer) in [
        (malformed, 2, 31, 0, 1),
        (idle(), 2, 32, 0, 2),
        (idle(), u64::MAX, 32, 60, 2),
        (idle(), 0, 31, 60, 2),
        (idle(), 1, 33, 0, 2),
        (idle(), 1, 0, 60, 2),
        (idle(), 1, 32, 43, 4),
        (held(), 1, 32, 43, 4),
        (held(), 1, 32, 44, 0),
    ] {
        let (mut given, mut output) = (record, vec![0xA5; room]);
        let report = export(&mut given, number, &vec![0; size], &mut output);
        assert_eq!((report.number, given), (answer, record));
        assert_eq!(report.written, if answer == 0 { 44 } else { 0 });
        assert!(answer == 0 || output == vec![0xA5; room]);
    }
}

/// "Import reads one P5 picture, with the board's own size and greatest grey 255, into
/// either buffer."
#[test]
fn a_picture_of_the_boards_size_is_read() {
    for number in 0..2 {
        let read = outcome(&idle(), number, &with(HEADER));
        assert_eq!(read, (0, Some(pixels())));
    }
    headers(
        &[HEADER],
        &[
            "P4\n16 2\n255\n",
            "P2\n16 2\n255\n",
            "p5\n16 2\n255\n",
            "\nP5\n16 2\n255\n",
            "P 5\n16 2\n255\n",
            "P5\n2 16\n255\n",
            "P5\n32 1\n255\n",
            "P5\n16 3\n255\n",
            "P5\n16 2\n254\n",
            "P5\n16 2\n65535\n",
            "P5\n16 2\n",
            "P5\n16 2 2\n255\n",
            "P5\n+16 2\n255\n",
            "P5\n16,2\n255\n",
            "P5\n 2\n255\n",
            "",
        ],
    );
}

/// "white space is blanks, tabs, newlines and carriage returns, one or more"
#[test]
fn white_space_is_one_or_more() {
    headers(
        &[
            "P5 16\t2\r255\n",
            "P5\r\n16\r\n2\r\n255\n",
            "P5 \t\r\n 16  2\n\n255\n",
        ],
        &[
            "P516 2\n255\n",
            "P5\n162\n255\n",
            "P5\n16 2255\n",
            "P5\x0B16 2\n255\n",
            "P5\n16\x0C2\n255\n",
            "P5\n16\x002\n255\n",
            "P5\n16\u{a0}2\n255\n",
        ],
    );
}

/// "just one after the 255"
#[test]
fn one_white_space_is_after_the_255() {
    headers(
        &[
            "P5 16 2 255 ",
            "P5 16 2 255\t",
            "P5 16 2 255\n",
            "P5 16 2 255\r",
        ],
        &[
            "P5 16 2 255",
            "P5 16 2 255\x0B",
            "P5 16 2 255\x0C",
            "P5 16 2 255\r\n",
            "P5 16 2 255\n\n",
        ],
    );
    // what follows is a pixel
    for byte in 0..=255 {
        let mut given = pixels();
        given[0] = byte;
        let picture = [HEADER.as_bytes(), &given].concat();
        assert_eq!(outcome(&idle(), 0, &picture), (0, Some(given)));
    }
}

/// "Between P5 and that one, a # through the next newline or carriage return is dropped,
/// even inside a number." What is dropped separates nothing.
#[test]
fn comments_are_dropped() {
    headers(
        &[
            "P5#a quay plan\n\n16 2\n255\n",
            "P5\n#a\n#b\r# c #d\n16 2\n255\n",
            "P5\n1#x\n6 2\n255\n",
            "P5\n1#x\r6 2\n255\n",
            "P5\n#\n1#\n6#\n #\n2#\n\n#\n2#\n5#\n5#\n\n",
            "P5\n16 2\n255#a\r\t",
        ],
        &[
            "P5#c\n16 2\n255\n",
            "P5\n16#c\n2\n255\n",
            "P5\n16#c\r2\n255\n",
            "P5\n16 2#c\n255\n",
            "P5\n16 2\n255#c\n",
            "P5\n16 2\n255#c\r",
            "P#c\n5\n16 2\n255\n",
            "#c\nP5\n16 2\n255\n",
            "P5\n16 2\n#no end",
            "P5\n16 2\n255#no end",
            "P5\n16 2\n25#5\n",
        ],
    );
    // a newline ends a comment, and so does a carriage return; the other bytes do not
    for byte in 0..=255 {
        let text = [b"P5\n16 2\n255#", &[byte][..], b"\n", &pixels()].concat();
        let ends = byte == b'\n' || byte == b'\r';
        assert_eq!(reads(&text), ends, "{byte}");
    }
}

/// A comment before every byte of the header changes nothing but before P and 5.
#[test]
fn a_comment_may_stand_anywhere() {
    for at in 0..HEADER.len() {
        for comment in ["#\n", "#\r", "#16 2 255 #\n", "#a\n#b\r"] {
            let mut header = HEADER.to_string();
            header.insert_str(at, comment);
            assert_eq!(reads(&with(&header)), at >= 2, "{header:?}");
        }
    }
}

/// "Leading zeros pass." Numbers do not wrap.
#[test]
fn leading_zeros_pass() {
    let zeros = "0".repeat(1_000);
    let padded = format!("P5 {zeros}16 {zeros}2 {zeros}255 ");
    let long = format!("P5 1{zeros}16 2 255 ");
    headers(
        &["P5 016 2 255 ", "P5 16 02 00255 ", &padded],
        &[
            "P5 160 2 255 ",
            "P5 272 2 255 ",
            "P5 65552 2 255 ",
            "P5 4294967312 2 255 ",
            "P5 16 4294967298 255 ",
            "P5 16 2 4294967551 ",
            "P5 18446744073709551632 2 255 ",
            "P5 340282366920938463463374607431768211472 2 255 ",
            &long,
        ],
    );
}

/// "11 for input that isn't such a picture or has bytes after it": too few pixels are none.
#[test]
fn pixels_missing_and_bytes_after() {
    let whole = with(HEADER);
    for length in 0..whole.len() {
        assert!(!reads(&whole[..length]), "{length}");
    }
    assert!(reads(&whole));
    for byte in [0, b'\n', b' ', b'#', b'P'] {
        assert!(!reads(&[&whole[..], &[byte]].concat()));
    }
    assert!(!reads(&whole.repeat(2)));
}

/// A # among the pixels begins no comment.
#[test]
fn pixels_are_any_bytes() {
    for byte in 0..=255 {
        let given = vec![byte; AREA];
        let picture = picture(16, 2, &given);
        assert_eq!(outcome(&idle(), 1, &picture), (0, Some(given)));
    }
}

/// Every byte of the header changed to every other: white space may be other white space.
#[test]
fn headers_with_a_byte_changed() {
    let white = |byte: u8| b" \t\n\r".contains(&byte);
    for (at, &old) in HEADER.as_bytes().iter().enumerate() {
        for byte in 0..=255 {
            let mut picture = with(HEADER);
            picture[at] = byte;
            let expected = byte == old || white(byte) && white(old);
            assert_eq!(reads(&picture), expected, "{byte} at {at}");
        }
    }
}

/// "On an idle board, importing an export restores that buffer."
#[test]
fn an_export_is_restored() {
    let mut board = board(8, 4, 16);
    draw(
        &mut board,
        &[(FORE, 7), (CMD, SOLID_LINE), (XY0, 0), (XY1, xy(4, 2))],
    );
    let (drawn, mut output) = (board.display.clone(), [0; 43]);
    assert_eq!(board.export(0, &mut output).number, 0);
    assert_eq!(board.window_write(0, 0, &[9; 32]), plain(0));
    assert_eq!(board.import(0, &output), plain(0));
    assert_eq!((&board.display, board.fault()), (&drawn, None));
}

/// "In demand 3 an accepted import is a window write." An export leaves the paper board as
/// it was, and is done while a slot is taken.
#[test]
fn an_import_is_a_window_write() {
    let (mut read, mut written) = (board(8, 4, 16), board(8, 4, 16));
    let pixels: Vec<u8> = (0..32).collect();
    let padded = [b"P5 #quay\n0008 4 255\n", &pixels[..]].concat();
    assert_eq!(read.import(1, &padded), plain(0));
    assert_eq!(written.window_write(1, 0, &pixels), plain(0));
    assert_eq!((read.record, &read.virt), (written.record, &written.virt));
    assert_eq!(read.paper.virt(), pixels);
    // refused, it is nothing
    assert_eq!(read.import(1, &padded[..50]), plain(11));
    assert_eq!(read.import(2, &padded), plain(2));
    read.store(0, &example());
    assert_eq!(read.post(0, 4), plain(0));
    assert_eq!(read.run(6), steps(6));
    assert_eq!(read.import(0, &padded), plain(7));
    let mut output = [0; 43];
    assert_eq!(read.export(0, &mut output).written, 43);
    assert_eq!(output[11..], read.display);
    assert_eq!(read.run(100), steps(3));
    assert_eq!(read.fault(), None);
    assert_eq!(read.paper.display(), read.display);
}

/// "Refusals: 1; 2 for board buffers; [..] 7 for import while a slot is taken; 11"
#[test]
fn an_imports_grounds() {
    let malformed = Record {
        under_way: 2,
        ..held()
    };
    let whole = with(HEADER);
    for (record, number, size, length, answer) in [
        (malformed, 2, 31, 0, 1),
        (held(), 2, 32, 0, 2),
        (held(), u64::MAX, 32, 44, 2),
        (held(), 0, 31, 44, 2),
        (held(), 0, 33, 0, 2),
        (idle(), 1, 0, 44, 2),
        (held(), 0, 32, 44, 7),
        (held(), 1, 32, 0, 7),
        (idle(), 1, 32, 0, 11),
        (idle(), 1, 32, 43, 11),
        (idle(), 1, 32, 44, 0),
    ] {
        let (mut given, mut buffer) = (record, vec![0xA5; size]);
        let report = import(&mut given, number, &whole[..length], &mut buffer);
        assert_eq!((report, given), (plain(answer), record));
        assert!(answer == 0 || buffer == vec![0xA5; size]);
    }
}

/// The same rules read another way: the pixels are the last bytes, "that one" white space is
/// the byte before them, and comments are taken out of what stands between P5 and it first.
fn is_picture(bytes: &[u8], size: [u64; 2], area: usize) -> bool {
    let white = |byte: &u8| b" \t\n\r".contains(byte);
    let Some((header, [last])) = bytes
        .len()
        .checked_sub(area)
        .and_then(|end| bytes[..end].split_last_chunk::<1>())
    else {
        return false;
    };
    let mut text = Vec::new();
    let mut in_comment = false;
    for &byte in header.get(2..).unwrap_or_default() {
        if !in_comment && byte != b'#' {
            text.push(byte);
        }
        in_comment = byte == b'#' || in_comment && byte != b'\n' && byte != b'\r';
    }
    let legal = text.iter().all(|byte| white(byte) || byte.is_ascii_digit());
    let begins = text.first().is_some_and(white);
    let ends = text.last().is_some_and(u8::is_ascii_digit);
    let words = text.split(white).filter(|word| !word.is_empty());
    let numbers: Vec<Option<u64>> = words
        .map(|word| std::str::from_utf8(word).unwrap().parse().ok())
        .collect();
    header.starts_with(b"P5")
        && white(last)
        && !in_comment
        && legal
        && begins
        && ends
        && numbers == [size[0], size[1], 255].map(Some)
}

/// Both readings agree on headers in which up to three bytes are changed, taken out or put
/// in, before pixels that mean something in a header.
#[test]
fn a_second_reading_agrees() {
    const BYTES: &[u8] = b" \t\n\r##00125P\x0Bx";
    const PIXELS: &[u8; AREA] = b"\n #\r255\n1#x\n6 2\n255\nP5 16 2 255#";
    let mut state = 0x1234_5678_9ABC_DEF1_u64;
    let mut below = |limit: usize| {
        state ^= state << 13;
        state ^= state >> 7;
        state ^= state << 17;
        (state >> 11) as usize % limit
    };
    let headers = [
        HEADER,
        "P5#c\n 1#\r6\t#\n2 #a#b\n2#\n55#\n\r",
        "P5  016\r\n02\n255 ",
    ];
    let mut read = 0;
    for round in 0..300_000 {
        let mut picture = [headers[round % 3].as_bytes(), PIXELS].concat();
        for _ in 0..below(4) {
            let (at, byte) = (below(picture.len() - AREA + 1), BYTES[below(BYTES.len())]);
            match below(3) {
                0 => picture[at] = byte,
                1 => picture.insert(at, byte),
                _ => drop(picture.remove(at)),
            }
        }
        let expected = is_picture(&picture, [WIDTH, HEIGHT], AREA);
        assert_eq!(reads(&picture), expected, "{}", picture.escape_ascii());
        read += usize::from(expected);
    }
    assert!((80_000..250_000).contains(&read), "{read}");
}
