//! What the terminal behind standard output can show.

use std::env;
use std::io::{self, IsTerminal};

/// When half blocks in colours are drawn.
#[derive(Clone, Copy, PartialEq, Eq)]
pub enum Colour {
    Auto,
    Always,
    Never,
}

impl Colour {
    /// Whether standard output is to get half blocks in 256 colours.
    pub fn is_drawn(self) -> bool {
        match self {
            Colour::Always => true,
            Colour::Never => false,
            Colour::Auto => {
                io::stdout().is_terminal()
                    && variable("NO_COLOR").is_empty()
                    && knows_256_colours(&variable("TERM"), &variable("COLORTERM"))
                    && is_utf8(["LC_ALL", "LC_CTYPE", "LANG"].map(variable))
            }
        }
    }
}

fn variable(name: &str) -> String {
    let value = env::var_os(name).unwrap_or_default();
    value.to_string_lossy().into_owned()
}

fn knows_256_colours(term: &str, colour_term: &str) -> bool {
    let many = colour_term == "truecolor" || colour_term == "24bit";
    term != "dumb" && (many || term.contains("256color") || term.contains("direct"))
}

/// Whether the first of these that says anything says UTF-8.
fn is_utf8(locale: [String; 3]) -> bool {
    let set = locale.iter().find(|value| !value.is_empty());
    set.is_some_and(|value| {
        let value = value.to_ascii_lowercase();
        value.contains("utf-8") || value.contains("utf8")
    })
}

/// The columns of the terminal behind standard output; none where there is no terminal, or it does not say.
pub fn columns() -> Option<usize> {
    #[repr(C)]
    #[derive(Default)]
    struct WindowSize {
        rows: u16,
        columns: u16,
        width: u16,
        height: u16,
    }
    const STANDARD_OUTPUT: i32 = 1;
    const TIOCGWINSZ: u64 = 0x5413;
    unsafe extern "C" {
        fn ioctl(file: i32, request: u64, ...) -> i32;
    }
    let mut size = WindowSize::default();
    // SAFETY: on Linux this request writes one window size, four numbers of 16 bits, and nothing else.
    let status = unsafe { ioctl(STANDARD_OUTPUT, TIOCGWINSZ, &mut size as *mut WindowSize) };
    let columns = usize::from(size.columns);
    (status == 0 && columns > 0).then_some(columns)
}

#[cfg(test)]
mod tests {
    use super::{is_utf8, knows_256_colours};

    #[test]
    fn terminals_with_256_colours() {
        assert!(knows_256_colours("xterm-256color", ""));
        assert!(knows_256_colours("screen", "truecolor"));
        assert!(!knows_256_colours("dumb", "truecolor"));
        assert!(!knows_256_colours("linux", ""));
        assert!(!knows_256_colours("", ""));
    }

    #[test]
    fn the_first_variable_that_is_set_says_the_locale() {
        let locale = |all: &str, ctype: &str, lang: &str| [all, ctype, lang].map(String::from);
        assert!(is_utf8(locale("", "", "en_GB.UTF-8")));
        assert!(is_utf8(locale("", "C.utf8", "C")));
        assert!(!is_utf8(locale("C", "", "en_GB.UTF-8")));
        assert!(!is_utf8(locale("", "", "")));
    }
}
