//! The tokens of a line of assembler text.

use call_log::Fault;

/// The characters that are tokens by themselves.
const MARKS: &str = "(),:";

/// The tokens of a line, up to its comment, read from the first on.
pub struct Tokens<'a> {
    line: usize,
    /// Each token with its column.
    tokens: Vec<(usize, &'a str)>,
    at: usize,
    /// The column after the last token.
    end: usize,
}

impl<'a> Tokens<'a> {
    pub fn of(line: usize, text: &'a str) -> Tokens<'a> {
        let text = text.split('#').next().unwrap_or("").trim_end();
        let mut tokens: Vec<(usize, &str)> = Vec::new();
        let mut start = None;
        let mut column = 0;
        for (at, character) in text.char_indices() {
            column += 1;
            let mark = MARKS.contains(character);
            if mark || character.is_whitespace() {
                if let Some((column, start)) = start.take() {
                    tokens.push((column, &text[start..at]));
                }
                if mark {
                    tokens.push((column, &text[at..=at]));
                }
            } else if start.is_none() {
                start = Some((column, at));
            }
        }
        if let Some((column, start)) = start {
            tokens.push((column, &text[start..]));
        }
        Tokens {
            line,
            tokens,
            at: 0,
            end: column + 1,
        }
    }

    pub fn peek(&self) -> Option<&'a str> {
        self.peek_at(0)
    }

    /// The token so many after the next.
    pub fn peek_at(&self, ahead: usize) -> Option<&'a str> {
        self.tokens.get(self.at + ahead).map(|token| token.1)
    }

    pub fn skip(&mut self) {
        self.at += 1;
    }

    /// A fault at the next token.
    pub fn fault(&self, message: String) -> Fault {
        let column = self.tokens.get(self.at).map_or(self.end, |token| token.0);
        Fault {
            line: self.line,
            column,
            message,
        }
    }

    /// A fault that says what was to stand in place of the next token.
    pub fn wanted(&self, wanted: &str) -> Fault {
        self.fault(match self.peek() {
            Some(token) => format!("'{token}' is not {wanted}"),
            None => format!("{wanted} is missing"),
        })
    }

    /// Takes the next token, which is to be this one.
    pub fn expect(&mut self, token: &str) -> Result<(), Fault> {
        match self.named([(0, token)]) {
            Some(_) => Ok(()),
            None => Err(self.wanted(&format!("'{token}'"))),
        }
    }

    /// Takes the next token and gives its word, where it is one of these names, in capitals or not.
    pub fn named<'n>(&mut self, names: impl IntoIterator<Item = (u32, &'n str)>) -> Option<u32> {
        let token = self.peek()?;
        let row = names
            .into_iter()
            .find(|row| row.1.eq_ignore_ascii_case(token))?;
        self.skip();
        Some(row.0)
    }

    /// Takes the next token, where it is a hex number of 32 bits with 0x before it.
    pub fn hex(&mut self) -> Option<u32> {
        let number = hex_number(self.peek()?)?;
        self.skip();
        number.try_into().ok()
    }

    /// Takes a number, decimal or with 0x before it, from least to most; below 0 as its 32 bits of two's complement.
    pub fn number(&mut self, wanted: &str, least: i64, most: i64) -> Result<u32, Fault> {
        let token = self.peek().ok_or_else(|| self.wanted(wanted))?;
        let number = hex_number(token).or_else(|| decimal(token));
        match number {
            Some(number) if (least..=most).contains(&number) => {
                self.skip();
                Ok(number as u32)
            }
            Some(_) => Err(self.wanted(&format!("{least} to {most}"))),
            None => Err(self.wanted(wanted)),
        }
    }
}

fn hex_number(token: &str) -> Option<i64> {
    let digits = token
        .strip_prefix("0x")
        .or_else(|| token.strip_prefix("0X"))?;
    let all_digits = digits.bytes().all(|byte| byte.is_ascii_hexdigit());
    let number = u32::from_str_radix(digits, 16).ok()?;
    all_digits.then_some(number.into())
}

fn decimal(token: &str) -> Option<i64> {
    let digits = token.strip_prefix('-').unwrap_or(token);
    let all_digits = digits.bytes().all(|byte| byte.is_ascii_digit());
    token.parse().ok().filter(|_| all_digits)
}

#[cfg(test)]
mod tests {
    use super::Tokens;

    #[test]
    fn columns_are_those_of_the_line() {
        let tokens = Tokens::of(3, "  é: XY1 (4,-2)  # (");
        let columns: Vec<_> = tokens.tokens.iter().map(|token| token.0).collect();
        let texts: Vec<_> = tokens.tokens.iter().map(|token| token.1).collect();
        assert_eq!(texts, ["é", ":", "XY1", "(", "4", ",", "-2", ")"]);
        assert_eq!(columns, [3, 4, 6, 10, 11, 12, 13, 15]);
        assert_eq!(tokens.end, 16);
    }

    #[test]
    fn numbers() {
        let read = |text: &str, least, most| Tokens::of(1, text).number("a number", least, most);
        assert_eq!(read("0x10", 0, 255), Ok(16));
        assert_eq!(read("4294967295", 0, u32::MAX.into()), Ok(u32::MAX));
        assert_eq!(read("-2", -4, 4), Ok(-2_i32 as u32));
        for text in ["", "+1", "1_0", "0x", "0x+1", "--1", "99999999999999999999"] {
            assert!(read(text, 0, 255).is_err(), "{text}");
        }
        let fault = read("256", 0, 255).expect_err("above the most");
        assert_eq!(fault.to_string(), "1:1: '256' is not 0 to 255");
    }
}
