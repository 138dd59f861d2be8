//! A buffer as a picture in binary PGM (Netpbm P5), and such a picture into a buffer.

use crate::{Answer, Board, ffi};

/// The bytes of the longest header of a picture.
const LONGEST_HEADER: usize = 17;

/// The bytes that a picture of a board of this size needs at most.
pub const fn picture_max(width: usize, height: usize) -> usize {
    width * height + LONGEST_HEADER
}

impl Board {
    /// Writes a buffer into `output` as a picture: `P5`, a newline, the width, a space, the height, a newline, `255`, a newline,
    /// and then the pixels. `number` is [`DISPLAY`](crate::DISPLAY) or [`VIRTUAL`](crate::VIRTUAL), and `buffer` that buffer. The
    /// bytes written, from the front of the output on; those past them stay. Lists may be left to be drawn.
    ///
    /// # Errors
    ///
    /// [`Answer::WrongSize`] with another number, or where `buffer` has not a byte for each pixel; [`Answer::PastTheEnd`] exactly
    /// where `output` is shorter than the picture, which [`picture_max`] bytes are not. The whole output stays.
    ///
    /// ```
    /// use pramolyt::{Answer, Board, DISPLAY, VIRTUAL, picture_max};
    ///
    /// let (made, mut board) = Board::make(4, 2, 1);
    /// made.ok()?;
    /// let display = [0, 1, 2, 3, 4, 5, 6, 7];
    /// let mut output = [0; picture_max(4, 2)];
    /// let written = board.export(DISPLAY, &display, &mut output)?;
    /// assert_eq!(output[..written], *b"P5\n4 2\n255\n\x00\x01\x02\x03\x04\x05\x06\x07");
    ///
    /// let mut virt = [0; 4 * 2];
    /// board.import(VIRTUAL, &output[..written], &mut virt).ok()?;
    /// assert_eq!(virt, display);
    /// # Ok::<(), Answer>(())
    /// ```
    pub fn export(
        &mut self,
        number: usize,
        buffer: &[u8],
        output: &mut [u8],
    ) -> Result<usize, Answer> {
        let mut written = u64::MAX;
        // SAFETY: pointers and lengths are those of live, borrowed memory; output is borrowed alone, so the others do not
        // overlap it.
        let number = unsafe {
            ffi::pramolyt_export(
                self,
                &mut written,
                number,
                buffer.as_ptr(),
                buffer.len(),
                output.as_mut_ptr(),
                output.len(),
            )
        };
        match (number, written) {
            (0, written) => Ok(written as usize),
            (number, 0) => Err(Answer::from_report(number, 0, 0)),
            _ => unreachable!("answer {number}, written {written}"),
        }
    }

    /// Reads one picture, of the board's own size and with 255 as its greatest grey, into a buffer. `number` is
    /// [`DISPLAY`](crate::DISPLAY) or [`VIRTUAL`](crate::VIRTUAL), and `buffer` that buffer. Where the picture has white space there
    /// may be more of it, numbers may begin with zeros, and comments are dropped.
    ///
    /// The answer is [`Answer::WrongSize`] with another number, or where `buffer` has not a byte for each pixel;
    /// [`Answer::Busy`] while a list is left to be drawn; [`Answer::NotAPicture`] where `picture` is not such a picture, or has
    /// bytes after it.
    pub fn import(&mut self, number: usize, picture: &[u8], buffer: &mut [u8]) -> Answer {
        // SAFETY: as in export, with the buffer borrowed alone.
        let number = unsafe {
            ffi::pramolyt_import(
                self,
                number,
                picture.as_ptr(),
                picture.len(),
                buffer.as_mut_ptr(),
                buffer.len(),
            )
        };
        Answer::from_report(number, 0, 0)
    }
}

#[cfg(test)]
mod tests {
    use std::vec;
    use std::vec::Vec;

    use super::picture_max;
    use crate::{Answer, Board, DISPLAY, VIRTUAL};

    const DONE: Answer = Answer::Done { steps: 0 };
    const AREA: usize = 32;

    /// An 8 by 4 board with 1 entry.
    fn board() -> Board {
        let (answer, board) = Board::make(8, 4, 1);
        assert_eq!(answer, DONE);
        board
    }

    fn pixels() -> [u8; AREA] {
        core::array::from_fn(|at| at as u8 + 0x80)
    }

    fn picture(header: &[u8]) -> Vec<u8> {
        [header, &pixels()].concat()
    }

    /// The import is refused so, and all stays.
    fn refuses(mut board: Board, number: usize, picture: &[u8], size: usize, answer: Answer) {
        let (before, mut buffer) = (board.clone(), vec![0xA5; size]);
        assert_eq!(board.import(number, picture, &mut buffer), answer);
        assert_eq!((board, buffer), (before, vec![0xA5; size]));
    }

    #[test]
    fn a_picture_of_8_by_4_has_43_bytes() {
        let mut output = [0xA5; 50];
        assert_eq!(board().export(DISPLAY, &pixels(), &mut output), Ok(43));
        assert_eq!(output[..43], picture(b"P5\n8 4\n255\n"));
        assert_eq!(output[43..], [0xA5; 7]);
    }

    #[test]
    fn most_bytes() {
        assert_eq!(picture_max(8, 4), 49);
        let (made, mut board) = Board::make(2_048, 2_048, 1);
        assert_eq!(made, DONE);
        let pixels = vec![7; 2_048 * 2_048];
        let mut output = vec![0; picture_max(2_048, 2_048)];
        assert_eq!(
            board.export(VIRTUAL, &pixels, &mut output),
            Ok(output.len())
        );
        assert!(output.starts_with(b"P5\n2048 2048\n255\n\x07"));
    }

    #[test]
    fn exports_that_are_refused() {
        let mut spoiled = board().words();
        spoiled[0] = 0;
        for (mut board, number, size, room, answer) in [
            (Board::from_words(spoiled), 2, 31, 0, Answer::Malformed),
            (board(), 2, 32, 0, Answer::WrongSize),
            (board(), usize::MAX, 32, 43, Answer::WrongSize),
            (board(), DISPLAY, 31, 0, Answer::WrongSize),
            (board(), VIRTUAL, 33, 43, Answer::WrongSize),
            (board(), VIRTUAL, 32, 42, Answer::PastTheEnd),
            (board(), DISPLAY, 32, 0, Answer::PastTheEnd),
        ] {
            let (before, mut output) = (board.clone(), vec![0xA5; room]);
            let refused = board.export(number, &vec![0; size], &mut output);
            assert_eq!((refused, board), (Err(answer), before));
            assert_eq!(output, vec![0xA5; room]);
        }
    }

    #[test]
    fn pictures_that_are_read() {
        for header in [
            &b"P5\n8 4\n255\n"[..],
            b"P5 \t\r\n8 4\r255\t",
            b"P5\n0008 04\n0255\n",
            b"P5#quay\n #plan\r8#\n 4#\n\n2#\n55#\n ",
        ] {
            let mut buffer = [0xA5; AREA];
            assert_eq!(board().import(VIRTUAL, &picture(header), &mut buffer), DONE);
            assert_eq!(buffer, pixels());
        }
    }

    #[test]
    fn pictures_that_are_not() {
        let whole = picture(b"P5\n8 4\n255\n");
        for header in [
            &b""[..],
            b"P2\n8 4\n255\n",
            b"P5\n4 8\n255\n",
            b"P5\n8 4\n254\n",
            b"P5#c\n8 4\n255\n",
            b"P5\n8 4\n255#c\n",
            b"P5\n8 4\n255\n\n",
            b"P5\n4294967304 4\n255\n",
        ] {
            refuses(
                board(),
                DISPLAY,
                &picture(header),
                AREA,
                Answer::NotAPicture,
            );
        }
        for length in 0..whole.len() {
            refuses(
                board(),
                DISPLAY,
                &whole[..length],
                AREA,
                Answer::NotAPicture,
            );
        }
        refuses(
            board(),
            DISPLAY,
            &whole.repeat(2),
            AREA,
            Answer::NotAPicture,
        );
    }

    #[test]
    fn imports_grounds_in_order() {
        let whole = picture(b"P5\n8 4\n255\n");
        let mut busy = board();
        assert_eq!(busy.post(&[0; 5], 0, 1), DONE);
        let mut spoiled = busy.words();
        spoiled[1] = 0;
        let spoiled = Board::from_words(spoiled);
        refuses(spoiled, 2, &[], 0, Answer::Malformed);
        refuses(busy.clone(), 2, &[], AREA, Answer::WrongSize);
        refuses(busy.clone(), DISPLAY, &whole, AREA + 1, Answer::WrongSize);
        refuses(busy.clone(), DISPLAY, &whole, AREA, Answer::Busy);
        refuses(busy.clone(), VIRTUAL, &[], AREA, Answer::Busy);
        refuses(board(), VIRTUAL, &[], AREA, Answer::NotAPicture);
        // an export does not mind
        let mut output = [0; 43];
        assert_eq!(busy.export(DISPLAY, &pixels(), &mut output), Ok(43));
        assert_eq!(output, whole[..]);
    }
}
