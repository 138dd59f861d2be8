//! The command line: options and the one file of a subcommand.

use std::ffi::{OsStr, OsString};
use std::os::unix::ffi::OsStrExt;

use crate::failure::Failure;

/// An option.
pub struct Opt {
    /// Its name, without the dashes.
    pub name: &'static str,
    /// Its letter, if it has one.
    pub letter: Option<char>,
    /// What its value is called; none where it takes none.
    pub value: Option<&'static str>,
    /// What it does, for --help.
    pub help: &'static str,
}

/// A subcommand.
pub struct Command {
    pub name: &'static str,
    /// What its file is called.
    pub file: &'static str,
    /// What it does, in a line.
    pub summary: &'static str,
    /// More of it, for --help.
    pub about: &'static str,
    pub options: &'static [Opt],
    pub run: fn(&Given) -> Result<u8, Failure>,
}

/// What a subcommand is given.
#[derive(Debug, Default)]
pub struct Given {
    pub file: OsString,
    values: Vec<(&'static str, OsString)>,
}

impl Given {
    pub fn has(&self, name: &str) -> bool {
        self.value(name).is_some()
    }

    /// The value of an option, the last where it is given more than once.
    pub fn value(&self, name: &str) -> Option<&OsStr> {
        let given = self.values.iter().rev().find(|given| given.0 == name);
        given.map(|given| given.1.as_os_str())
    }

    /// The file that is written.
    pub fn output(&self) -> &OsStr {
        self.value("output").unwrap_or(OsStr::new("-"))
    }

    /// A number from least to most.
    pub fn number(&self, name: &str, least: u64, most: u64) -> Result<Option<u64>, Failure> {
        let Some(value) = self.value(name) else {
            return Ok(None);
        };
        match decimal(value) {
            Some(number) if (least..=most).contains(&number) => Ok(Some(number)),
            _ => Err(wrong(
                name,
                value,
                &format!("a number from {least} to {most}"),
            )),
        }
    }

    /// One of these words, by its place among them.
    pub fn choice(&self, name: &str, words: &[&str]) -> Result<Option<usize>, Failure> {
        let Some(value) = self.value(name) else {
            return Ok(None);
        };
        match words.iter().position(|word| value == *word) {
            Some(place) => Ok(Some(place)),
            None => Err(wrong(name, value, &words.join(" or "))),
        }
    }

    /// The board's width and height, which are to be given. Whether there is such a board is for the library to say.
    pub fn size(&self) -> Result<(usize, usize), Failure> {
        let Some(value) = self.value("size") else {
            let message = "--size is missing, the board's size as 320x200";
            return Err(Failure::Misuse(message.into()));
        };
        let size = split(value, 'x').and_then(|(width, height)| {
            let width = usize::try_from(decimal(width)?).ok()?;
            Some((width, usize::try_from(decimal(height)?).ok()?))
        });
        size.ok_or_else(|| self.wrong_size())
    }

    /// A board of this size is refused.
    pub fn wrong_size(&self) -> Failure {
        let value = self.value("size").unwrap_or_default();
        wrong("size", value, "width and height, 1x1 to 2048x2048")
    }

    /// A part of the picture: x, y, width, height.
    pub fn view(&self) -> Result<Option<[usize; 4]>, Failure> {
        let Some(value) = self.value("view") else {
            return Ok(None);
        };
        let parts = || {
            let (x, rest) = split(value, ',')?;
            let (y, size) = split(rest, ',')?;
            let (width, height) = split(size, 'x')?;
            let mut numbers = [0; 4];
            for (number, text) in numbers.iter_mut().zip([x, y, width, height]) {
                *number = usize::try_from(decimal(text)?).ok()?;
            }
            Some(numbers)
        };
        match parts() {
            Some(view) => Ok(Some(view)),
            None => Err(wrong("view", value, "X,Y,WxH as 0,0,80x50")),
        }
    }
}

/// The misuse of an option's value.
fn wrong(name: &str, value: &OsStr, wanted: &str) -> Failure {
    let value = value.to_string_lossy();
    Failure::Misuse(format!("--{name}: '{value}' is not {wanted}"))
}

fn decimal(text: &OsStr) -> Option<u64> {
    let text = text.to_str()?;
    let digits = text.bytes().all(|byte| byte.is_ascii_digit());
    text.parse().ok().filter(|_| digits)
}

/// What stands before and after the first such mark.
fn split(text: &OsStr, mark: char) -> Option<(&OsStr, &OsStr)> {
    let bytes = text.as_bytes();
    let at = bytes.iter().position(|&byte| byte == mark as u8)?;
    let (before, after) = (&bytes[..at], &bytes[at + 1..]);
    Some((OsStr::from_bytes(before), OsStr::from_bytes(after)))
}

/// What a command line asks for.
#[derive(Debug)]
pub enum Asked {
    Run(Given),
    Help,
    Version,
}

/// Reads what stands after the name of a subcommand.
pub fn parse(
    command: &Command,
    mut args: impl Iterator<Item = OsString>,
) -> Result<Asked, Failure> {
    let mut given = Given::default();
    let mut files = Vec::new();
    let mut options_end = false;
    while let Some(arg) = args.next() {
        let is_option = !options_end && arg != "-" && arg.as_bytes().starts_with(b"-");
        if !is_option {
            files.push(arg);
        } else if arg == "--" {
            options_end = true;
        } else if arg == "--help" || arg == "-h" {
            return Ok(Asked::Help);
        } else if arg == "--version" || arg == "-V" {
            return Ok(Asked::Version);
        } else {
            take_option(command, &arg, &mut args, &mut given)?;
        }
    }
    match <[OsString; 1]>::try_from(files) {
        Ok([file]) => given.file = file,
        Err(files) => {
            let count = files.len();
            return Err(Failure::Misuse(format!(
                "one {} is to be given, not {count}",
                command.file
            )));
        }
    }
    Ok(Asked::Run(given))
}

/// Takes an option and its value, which stands behind `=`, behind the letter, or in the next argument.
fn take_option(
    command: &Command,
    arg: &OsStr,
    rest: &mut impl Iterator<Item = OsString>,
    given: &mut Given,
) -> Result<(), Failure> {
    let Some((option, value)) = option_of(command, arg) else {
        let message = format!("there is no option {}", arg.to_string_lossy());
        return Err(Failure::Misuse(message));
    };
    let name = option.name;
    let value = match (option.value, value) {
        (Some(_), Some(value)) => value.to_owned(),
        (Some(wanted), None) => rest
            .next()
            .ok_or_else(|| Failure::Misuse(format!("--{name}: {wanted} is missing")))?,
        (None, None) => OsString::new(),
        (None, Some(_)) => return Err(Failure::Misuse(format!("--{name} takes no value"))),
    };
    given.values.push((name, value));
    Ok(())
}

/// The option that an argument is, and the value that it has in itself.
fn option_of<'a>(command: &Command, arg: &'a OsStr) -> Option<(&'static Opt, Option<&'a OsStr>)> {
    let mut options = command.options.iter();
    let bytes = arg.as_bytes();
    if let Some(long) = bytes.strip_prefix(b"--") {
        let long = OsStr::from_bytes(long);
        let (name, value) = match split(long, '=') {
            Some((name, value)) => (name, Some(value)),
            None => (long, None),
        };
        let option = options.find(|option| name == option.name)?;
        return Some((option, value));
    }
    let letter = char::from(*bytes.get(1)?);
    let option = options.find(|option| option.letter == Some(letter))?;
    let value = Some(&bytes[2..]).filter(|value| !value.is_empty());
    Some((option, value.map(OsStr::from_bytes)))
}
