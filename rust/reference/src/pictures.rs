//! "Pictures for the office" (document 02, R-9): a buffer as a binary PGM picture, and
//! such a picture into a buffer.

use crate::calls::{is_buffer, put_bytes, Report};
use crate::record::Record;

/// "greatest grey 255".
const GREATEST_GREY: u32 = 255;

/// "Export writes either buffer as binary PGM (Netpbm P5), numbers unpadded". "Refusals:
/// 1; 2 for board buffers; 4 exactly where the output is shorter than the picture
/// needs".
pub fn export(record: &mut Record, number: u64, buffer: &[u8], output: &mut [u8]) -> Report {
    if record.malformed() {
        return Report::plain(1);
    }
    if number > 1 || !is_buffer(record, buffer) {
        return Report::plain(2);
    }
    let picture = picture(record.width, record.height, buffer);
    if output.len() < picture.len() {
        return Report::plain(4);
    }
    put_bytes(output, 0, &picture);
    Report {
        written: picture.len() as u64,
        ..Report::plain(0)
    }
}

/// "P5, newline, width, space, height, newline, 255, newline, then the pixels."
pub fn picture(width: u32, height: u32, pixels: &[u8]) -> Vec<u8> {
    let mut picture = format!("P5\n{width} {height}\n{GREATEST_GREY}\n").into_bytes();
    picture.extend(pixels);
    picture
}

/// "Import reads one P5 picture, with the board's own size and greatest grey 255, into
/// either buffer." "Refusals: 1; 2 for board buffers; [..] 7 for import while a slot is
/// taken; 11 for input that isn't such a picture or has bytes after it."
pub fn import(record: &mut Record, number: u64, picture: &[u8], buffer: &mut [u8]) -> Report {
    if record.malformed() {
        return Report::plain(1);
    }
    let raster = after_header(picture, record.width, record.height);
    if number > 1 || !is_buffer(record, buffer) {
        return Report::plain(2);
    }
    if record.active_taken == 1 || record.pending_taken == 1 {
        return Report::plain(7);
    }
    match raster {
        Some(raster) if raster.len() == buffer.len() => {
            put_bytes(buffer, 0, raster);
            Report::plain(0)
        }
        _ => Report::plain(11),
    }
}

/// What follows the header of a picture of this size; none where there is no such header.
///
/// "By the Netpbm rules white space is blanks, tabs, newlines and carriage returns, one or
/// more, just one after the 255."
fn after_header(picture: &[u8], width: u32, height: u32) -> Option<&[u8]> {
    let mut header = Header {
        rest: picture.strip_prefix(b"P5")?,
    };
    let mut byte = header.next()?;
    for wanted in [width, height, GREATEST_GREY] {
        if !is_white(byte) {
            return None;
        }
        while is_white(byte) {
            byte = header.next()?;
        }
        let mut digits = Vec::new();
        while byte.is_ascii_digit() {
            digits.push(byte);
            byte = header.next()?;
        }
        if value(&digits) != Some(wanted.into()) {
            return None;
        }
    }
    is_white(byte).then_some(header.rest)
}

/// A picture after its P5, as far as it has not been read.
struct Header<'a> {
    rest: &'a [u8],
}

impl Header<'_> {
    /// The next byte. "Between P5 and that one, a # through the next newline or carriage
    /// return is dropped, even inside a number." None at the end of the input, which
    /// ends no comment.
    fn next(&mut self) -> Option<u8> {
        loop {
            let (&byte, rest) = self.rest.split_first()?;
            self.rest = rest;
            if byte != b'#' {
                return Some(byte);
            }
            let end = rest.iter().position(|&byte| ends_comment(byte))?;
            self.rest = &rest[end + 1..];
        }
    }
}

/// "blanks, tabs, newlines and carriage returns".
fn is_white(byte: u8) -> bool {
    matches!(byte, b' ' | b'\t' | b'\n' | b'\r')
}

/// "through the next newline or carriage return".
fn ends_comment(byte: u8) -> bool {
    matches!(byte, b'\n' | b'\r')
}

/// The number that digits write; none where there are none. "Leading zeros pass." One
/// that is too large stays at the largest, which no board's is.
fn value(digits: &[u8]) -> Option<u64> {
    let append = |number: u64, digit: &u8| {
        number
            .saturating_mul(10)
            .saturating_add((digit - b'0').into())
    };
    (!digits.is_empty()).then(|| digits.iter().fold(0, append))
}
