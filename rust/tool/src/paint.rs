//! A picture on standard output: as text, or by half blocks in 256 colours.

use std::fmt::Write;
use std::io::{self, IsTerminal};

use crate::args::Given;
use crate::failure::Failure;
use crate::terminal::{Colour, columns};

/// A picture, a byte a pixel.
pub struct Picture<'a> {
    pub pixels: &'a [u8],
    pub width: usize,
}

impl Picture<'_> {
    fn height(&self) -> usize {
        self.pixels.len() / self.width
    }

    /// The part of row y from column x on.
    fn row(&self, y: usize, x: usize, width: usize) -> &[u8] {
        &self.pixels[y * self.width + x..][..width]
    }
}

/// How pictures are shown.
pub struct Painter {
    half_blocks: bool,
    view: Option<[usize; 4]>,
    /// The columns of the terminal, where there is one.
    columns: Option<usize>,
}

/// The part of a picture that is shown.
#[derive(Debug, PartialEq, Eq)]
struct Part {
    x: usize,
    y: usize,
    width: usize,
    height: usize,
}

impl Painter {
    pub fn new(given: &Given) -> Result<Painter, Failure> {
        let choices = [Colour::Auto, Colour::Always, Colour::Never];
        let choice = given.choice("color", &["auto", "always", "never"])?;
        let colour = choices[choice.unwrap_or(0)];
        let terminal = io::stdout().is_terminal();
        Ok(Painter {
            half_blocks: colour.is_drawn(),
            view: given.view()?,
            columns: columns().filter(|_| terminal),
        })
    }

    /// The picture as it is shown, and what is to be said of a part that does not fit the terminal.
    pub fn paint(&self, picture: &Picture) -> (String, Option<String>) {
        let digits = if picture.pixels.iter().all(|&pixel| pixel < 16) {
            1
        } else {
            3
        };
        let columns_a_pixel = if self.half_blocks { 1 } else { digits };
        let mut part = self.part(picture);
        let wanted = part.width;
        if let Some(columns) = self.columns {
            part.width = part.width.min((columns / columns_a_pixel).max(1));
        }
        let note = (part.width < wanted).then(|| {
            let last = part.x + part.width - 1;
            let of = picture.width;
            format!("columns {} to {last} of {of}; --view shows others", part.x)
        });
        let mut out = String::new();
        let written = if self.half_blocks {
            half_blocks(picture, &part, &mut out)
        } else {
            text(picture, &part, digits == 1, &mut out)
        };
        written.expect("a String takes all");
        (out, note)
    }

    /// The part that was asked for, as far as the picture has it.
    fn part(&self, picture: &Picture) -> Part {
        let (full_width, full_height) = (picture.width, picture.height());
        let [x, y, width, height] = self.view.unwrap_or([0, 0, full_width, full_height]);
        let (x, y) = (x.min(full_width), y.min(full_height));
        Part {
            x,
            y,
            width: width.min(full_width - x),
            height: height.min(full_height - y),
        }
    }
}

/// A row a line: one hex digit a pixel where all pixels are below 16, else two; 0 is a dot.
fn text(picture: &Picture, part: &Part, one_digit: bool, out: &mut String) -> std::fmt::Result {
    for y in part.y..part.y + part.height {
        for (at, pixel) in picture.row(y, part.x, part.width).iter().enumerate() {
            match (one_digit, pixel) {
                (true, 0) => out.push('.'),
                (true, pixel) => write!(out, "{pixel:X}")?,
                (false, pixel) => {
                    out.push_str(if at > 0 { " " } else { "" });
                    match pixel {
                        0 => out.push_str(".."),
                        pixel => write!(out, "{pixel:02X}")?,
                    }
                }
            }
        }
        out.push('\n');
    }
    Ok(())
}

/// Two rows a line: each character is an upper half block, its foreground the upper pixel and its background the lower one.
fn half_blocks(picture: &Picture, part: &Part, out: &mut String) -> std::fmt::Result {
    let end = part.y + part.height;
    for y in (part.y..end).step_by(2) {
        let upper = picture.row(y, part.x, part.width);
        let lower = (y + 1 < end).then(|| picture.row(y + 1, part.x, part.width));
        let mut last = None;
        for (at, &above) in upper.iter().enumerate() {
            let below = lower.map(|row| row[at]);
            if last != Some((above, below)) {
                last = Some((above, below));
                match below {
                    Some(below) => write!(out, "\x1b[38;5;{above};48;5;{below}m")?,
                    None => write!(out, "\x1b[38;5;{above};49m")?,
                }
            }
            out.push('\u{2580}');
        }
        out.push_str("\x1b[0m\n");
    }
    Ok(())
}

#[cfg(test)]
mod tests {
    use super::{Painter, Picture};

    fn painter(half_blocks: bool, columns: Option<usize>, view: Option<[usize; 4]>) -> Painter {
        Painter {
            half_blocks,
            view,
            columns,
        }
    }

    #[test]
    fn text_has_one_digit_a_pixel_or_two() {
        let low = Picture {
            pixels: &[0, 1, 10, 15, 0, 0],
            width: 3,
        };
        let text = painter(false, None, None).paint(&low);
        assert_eq!(text, (".1A\nF..\n".into(), None));
        let high = Picture {
            pixels: &[0, 1, 16, 255, 0, 0],
            width: 3,
        };
        let text = painter(false, None, None).paint(&high);
        assert_eq!(text, (".. 01 10\nFF .. ..\n".into(), None));
    }

    #[test]
    fn half_blocks_have_two_rows_a_line() {
        let picture = Picture {
            pixels: &[1, 1, 2, 3, 4, 5],
            width: 2,
        };
        let (text, _) = painter(true, None, None).paint(&picture);
        assert_eq!(
            text,
            "\x1b[38;5;1;48;5;2m\u{2580}\x1b[38;5;1;48;5;3m\u{2580}\x1b[0m\n\
             \x1b[38;5;4;49m\u{2580}\x1b[38;5;5;49m\u{2580}\x1b[0m\n"
        );
    }

    #[test]
    fn a_view_and_a_narrow_terminal() {
        let picture = Picture {
            pixels: &[1, 2, 3, 4, 5, 6],
            width: 3,
        };
        let paint = |columns, view| painter(false, columns, Some(view)).paint(&picture);
        assert_eq!(paint(None, [1, 0, 9, 1]), ("23\n".into(), None));
        assert_eq!(paint(None, [3, 9, 9, 9]), (String::new(), None));
        assert_eq!(paint(None, [9, 1, 1, 1]), ("\n".into(), None));
        let note = "columns 1 to 1 of 3; --view shows others".into();
        assert_eq!(paint(Some(1), [1, 1, 2, 1]), ("5\n".into(), Some(note)));
    }
}
