//! Reading the log.

use std::borrow::Cow;
use std::io::BufRead;

use pramolyt::Feed;

use crate::call::{Call, Detail, Outcome};
use crate::lines::{Fault, Lines, Trouble};

/// The most bytes of a call or a picture in a log.
const MOST_BYTES: usize = 1 << 26;

/// A call of a log.
#[derive(Debug, PartialEq, Eq)]
pub struct Line {
    /// The number of its first line.
    pub number: usize,
    /// The call.
    pub call: Call<'static>,
    /// What it handed back; none where the log does not say.
    pub outcome: Option<Outcome>,
}

/// The calls of a log, one at a time.
pub struct Reader<R> {
    lines: Lines<R>,
    /// The line that was read to see that the call before it had ended.
    ahead: Option<Vec<Word>>,
}

/// A word of the log, and where it stands.
#[derive(Debug)]
struct Word {
    line: usize,
    column: usize,
    text: String,
}

impl Word {
    fn fault(&self, message: String) -> Fault {
        Fault {
            line: self.line,
            column: self.column,
            message,
        }
    }
}

impl<R: BufRead> Reader<R> {
    /// The calls of the log that `input` is.
    pub fn new(input: R) -> Reader<R> {
        Reader {
            lines: Lines::new(input),
            ahead: None,
        }
    }

    /// The next call; none at the end of the log.
    ///
    /// # Errors
    ///
    /// The input cannot be read, or is no log.
    pub fn next_call(&mut self) -> Result<Option<Line>, Trouble> {
        let Some(mut words) = self.take_words()? else {
            return Ok(None);
        };
        while let Some(more) = self.take_words()? {
            if more[0].column == 1 {
                self.ahead = Some(more);
                break;
            }
            words.extend(more);
        }
        Ok(Some(line(&words)?))
    }

    /// The words of the next line that has any.
    fn take_words(&mut self) -> Result<Option<Vec<Word>>, Trouble> {
        if let Some(words) = self.ahead.take() {
            return Ok(Some(words));
        }
        while let Some((number, text)) = self.lines.next_line()? {
            let words = words(number, &text);
            if !words.is_empty() {
                return Ok(Some(words));
            }
        }
        Ok(None)
    }
}

/// The words of a line up to its comment.
fn words(line: usize, text: &str) -> Vec<Word> {
    let text = text.split('#').next().unwrap_or("");
    let mut words: Vec<Word> = Vec::new();
    let mut inside = false;
    for (at, character) in text.chars().enumerate() {
        if character.is_whitespace() {
            inside = false;
        } else if let (true, Some(word)) = (inside, words.last_mut()) {
            word.text.push(character);
        } else {
            inside = true;
            words.push(Word {
                line,
                column: at + 1,
                text: character.into(),
            });
        }
    }
    words
}

/// The call that these words are, of which there is one at least.
fn line(words: &[Word]) -> Result<Line, Fault> {
    let mut rest = Words { words, at: 0 };
    let call = rest.call()?;
    let answered = !matches!(call, Call::Overwrite { .. });
    let outcome = match rest.peek() {
        Some("=") if answered => {
            rest.at += 1;
            Some(rest.outcome()?)
        }
        _ => None,
    };
    match words.get(rest.at) {
        None => Ok(Line {
            number: words[0].line,
            call,
            outcome,
        }),
        Some(word) => Err(word.fault(format!("'{}' is too much", word.text))),
    }
}

/// The words of a call, read from the first on.
struct Words<'a> {
    words: &'a [Word],
    at: usize,
}

impl<'a> Words<'a> {
    fn peek(&self) -> Option<&'a str> {
        self.words.get(self.at).map(|word| word.text.as_str())
    }

    fn next(&mut self, wanted: &str) -> Result<&'a Word, Fault> {
        match self.words.get(self.at) {
            Some(word) if word.text != "=" => {
                self.at += 1;
                Ok(word)
            }
            Some(word) => Err(word.fault(format!("{wanted} is missing"))),
            None => {
                let last = &self.words[self.words.len() - 1];
                let column = last.column + last.text.chars().count();
                Err(Fault {
                    line: last.line,
                    column,
                    message: format!("{wanted} is missing"),
                })
            }
        }
    }

    fn call(&mut self) -> Result<Call<'static>, Fault> {
        let name = self.next("a call")?;
        Ok(match name.text.as_str() {
            "make" => Call::Make {
                width: self.size("the width")?,
                height: self.size("the height")?,
                entries: self.size("the number of entries")?,
            },
            "store" => Call::Store {
                first: self.size("the first entry")?,
                bytes: self.bytes()?,
            },
            "overwrite" => Call::Overwrite {
                first: self.size("the first entry")?,
                bytes: self.bytes()?,
            },
            "feed" => Call::Feed {
                feed: self.feed()?,
                piece: self.bytes()?,
            },
            "post" => Call::Post {
                start: self.size("the start")?,
                count: self.size("the count")?,
            },
            "run" => Call::Run {
                budget: self.number("the budget")?,
            },
            "write" | "export" | "import" => self.buffer_call(&name.text)?,
            other => return Err(name.fault(format!("there is no call '{other}'"))),
        })
    }

    fn buffer_call(&mut self, name: &str) -> Result<Call<'static>, Fault> {
        let number = self.size("the number of the buffer")?;
        Ok(match name {
            "write" => Call::Write {
                number,
                offset: self.size("the offset")?,
                bytes: self.bytes()?,
            },
            "export" => Call::Export {
                number,
                room: self.size("the size of the output")?,
            },
            _ => Call::Import {
                number,
                picture: self.bytes()?,
            },
        })
    }

    fn outcome(&mut self) -> Result<Outcome, Fault> {
        let answer = self.next("the answer")?;
        let number = parsed(answer, "an answer's number")?;
        let detail = match self.words.get(self.at) {
            None => Detail::None,
            Some(word) => {
                self.at += 1;
                match word.text.as_str() {
                    "place" => Detail::Place(self.number("the place")?),
                    "steps" => Detail::Steps(self.number("the number of steps")?),
                    "picture" => Detail::Picture(self.bytes()?.into_owned()),
                    "feed" => Detail::Feed(self.feed()?),
                    other => {
                        let message = format!("'{other}' is not place, steps, picture or feed");
                        return Err(word.fault(message));
                    }
                }
            }
        };
        Ok(Outcome { number, detail })
    }

    /// A feed record.
    fn feed(&mut self) -> Result<Feed, Fault> {
        let next = self.size("the next entry")?;
        let count = self.next("the count of held bytes")?;
        let count = parsed(count, "a number up to 4294967295")?;
        let word = self.next("the held bytes")?;
        let held = pairs(word)?
            .try_into()
            .map_err(|_| word.fault("the held bytes are four, eight digits".into()))?;
        Ok(Feed::from_parts(next, held, count))
    }

    fn number(&mut self, wanted: &str) -> Result<u64, Fault> {
        parsed(self.next(wanted)?, "a number below 2^64")
    }

    fn size(&mut self, wanted: &str) -> Result<usize, Fault> {
        parsed(self.next(wanted)?, "a number below 2^64")
    }

    /// The bytes up to the answer or the end; a dash is none.
    fn bytes(&mut self) -> Result<Cow<'static, [u8]>, Fault> {
        let mut bytes = Vec::new();
        let first = self.next("bytes, or - for none,")?;
        if first.text == "-" {
            return Ok(bytes.into());
        }
        bytes.extend(pairs(first)?);
        while self.peek().is_some_and(|text| text != "=") {
            let word = self.next("a byte")?;
            bytes.extend(pairs(word)?);
            if bytes.len() > MOST_BYTES {
                return Err(word.fault(format!("these are more than {MOST_BYTES} bytes")));
            }
        }
        Ok(bytes.into())
    }
}

/// A number in decimal digits.
fn parsed<N: std::str::FromStr>(word: &Word, wanted: &str) -> Result<N, Fault> {
    let digits = word.text.bytes().all(|byte| byte.is_ascii_digit());
    match word.text.parse() {
        Ok(number) if digits => Ok(number),
        _ => Err(word.fault(format!("'{}' is not {wanted}", word.text))),
    }
}

/// The bytes of pairs of hex digits.
fn pairs(word: &Word) -> Result<Vec<u8>, Fault> {
    let wrong = || word.fault(format!("'{}' is not pairs of hex digits", word.text));
    let digit = |byte: &u8| char::from(*byte).to_digit(16).map(|digit| digit as u8);
    let digits: Option<Vec<u8>> = word.text.as_bytes().iter().map(digit).collect();
    match digits {
        Some(digits) if digits.len() % 2 == 0 => Ok(digits
            .chunks(2)
            .map(|pair| 16 * pair[0] + pair[1])
            .collect()),
        _ => Err(wrong()),
    }
}

#[cfg(test)]
mod tests {
    use super::Reader;
    use crate::{Call, Detail, Line, Outcome, Trouble};
    use pramolyt::Feed;

    /// The calls of a log, or its fault.
    fn read(log: &str) -> Result<Vec<Line>, String> {
        let mut reader = Reader::new(log.as_bytes());
        let mut calls = Vec::new();
        loop {
            match reader.next_call() {
                Ok(Some(line)) => calls.push(line),
                Ok(None) => return Ok(calls),
                Err(Trouble::Fault(fault)) => return Err(fault.to_string()),
                Err(Trouble::Io(error)) => panic!("{error}"),
            }
        }
    }

    fn calls_of_numbers() -> [Call<'static>; 4] {
        let (width, height, entries) = (8, 4, usize::MAX);
        [
            Call::Make {
                width,
                height,
                entries,
            },
            Call::Post { start: 0, count: 1 },
            Call::Run { budget: u64::MAX },
            Call::Export {
                number: 0,
                room: 43,
            },
        ]
    }

    fn calls_with_bytes() -> [Call<'static>; 6] {
        let long: Vec<u8> = (0..=255).collect();
        [
            Call::Store {
                first: 3,
                bytes: long.clone().into(),
            },
            Call::Store {
                first: 0,
                bytes: vec![].into(),
            },
            Call::Overwrite {
                first: 1,
                bytes: vec![1, 2].into(),
            },
            Call::Feed {
                feed: Feed::from_parts(7, [1, 2, 3, 4], 9),
                piece: vec![0xFF].into(),
            },
            Call::Write {
                number: 1,
                offset: 30,
                bytes: long.clone().into(),
            },
            Call::Import {
                number: 2,
                picture: long.into(),
            },
        ]
    }

    fn calls() -> Vec<Call<'static>> {
        let numbers = calls_of_numbers().into_iter();
        numbers.chain(calls_with_bytes()).collect()
    }

    #[test]
    fn what_is_written_is_read() {
        let details = [
            Detail::None,
            Detail::Place(4),
            Detail::Steps(u64::MAX),
            Detail::Picture((0..200).collect()),
            Detail::Feed(Feed::from_parts(0, [0; 4], 0)),
        ];
        for call in calls() {
            let log = format!("# a log\n\n{call}\n");
            let line = |outcome| Line {
                number: 3,
                call: call.clone(),
                outcome,
            };
            assert_eq!(read(&log), Ok(vec![line(None)]));
            for detail in details.clone() {
                let outcome = Outcome { number: 6, detail };
                let log = format!("# a log\n\n{call} = {outcome} # so\n");
                match call {
                    Call::Overwrite { .. } => assert!(read(&log).is_err()),
                    _ => assert_eq!(read(&log), Ok(vec![line(Some(outcome))])),
                }
            }
        }
        let all: String = calls().iter().map(|call| format!("{call}\n")).collect();
        let read: Vec<Call> = read(&all)
            .expect("a log")
            .into_iter()
            .map(|line| line.call)
            .collect();
        assert_eq!(read, calls());
    }

    #[test]
    fn faults_are_told_by_their_place() {
        for (log, fault) in [
            ("make 8 4\n", "1:9: the number of entries is missing"),
            ("make 8 = 2\n", "1:8: the height is missing"),
            ("post 0 1\n\ndraw 1\n", "3:1: there is no call 'draw'"),
            ("post 0 -1\n", "1:8: '-1' is not a number below 2^64"),
            ("run +1\n", "1:5: '+1' is not a number below 2^64"),
            (
                "run 18446744073709551616\n",
                "1:5: '18446744073709551616' is not a number below 2^64",
            ),
            ("store 0 080\n", "1:9: '080' is not pairs of hex digits"),
            ("store 0 08\n  0G\n", "2:3: '0G' is not pairs of hex digits"),
            ("store 0\n", "1:8: bytes, or - for none, is missing"),
            (
                "run 1 = 0 stepz 3\n",
                "1:11: 'stepz' is not place, steps, picture or feed",
            ),
            ("run 1 = 0 steps 3 4\n", "1:19: '4' is too much"),
            ("run 1 =\n", "1:8: the answer is missing"),
            (
                "feed 0 0 00 08\n",
                "1:10: the held bytes are four, eight digits",
            ),
            (
                "feed 0 4294967296 00000000 08\n",
                "1:8: '4294967296' is not a number up to 4294967295",
            ),
        ] {
            assert_eq!(read(log), Err(fault.to_string()));
        }
    }
}
