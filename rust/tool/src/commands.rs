//! The subcommands and their options: one table, which --help is made of. The tests hold the manual page and the completion
//! against it.

use crate::args::{Command, Opt};
use crate::{asm, check, convert, dis, pictures, replay, show, trace};

const fn with_value(name: &'static str, value: &'static str, help: &'static str) -> Opt {
    Opt {
        name,
        letter: None,
        value: Some(value),
        help,
    }
}

const fn flag(name: &'static str, help: &'static str) -> Opt {
    Opt {
        name,
        letter: None,
        value: None,
        help,
    }
}

const fn output(help: &'static str) -> Opt {
    Opt {
        name: "output",
        letter: Some('o'),
        value: Some("FILE"),
        help,
    }
}

const TO_FILE: Opt = output("write to FILE, not to standard output");
const SIZE: Opt = with_value(
    "size",
    "WxH",
    "the board's width and height, as 320x200; to be given",
);
const FROM: Opt = with_value(
    "from",
    "PICTURE",
    "begin with this PGM in the display, else with zeros",
);
const FROM_VIRTUAL: Opt = with_value(
    "from-virtual",
    "PICTURE",
    "begin with this PGM in the virtual buffer, else with zeros",
);
const BUFFER: Opt = with_value(
    "buffer",
    "NAME",
    "the buffer that is shown or written: display or virtual",
);
const COLOR: Opt = with_value(
    "color",
    "WHEN",
    "half blocks in 256 colours: auto, always or never",
);
const VIEW: Opt = with_value("view", "X,Y,WxH", "show this part of the picture alone");
const LOG: Opt = with_value(
    "log",
    "FILE",
    "write the calls and their answers to FILE, for replay",
);

/// What every subcommand has besides its own options.
pub const COMMON: [Opt; 2] = [
    Opt {
        name: "help",
        letter: Some('h'),
        value: None,
        help: "say what the command does and what its options are",
    },
    Opt {
        name: "version",
        letter: Some('V'),
        value: None,
        help: "say the version",
    },
];

pub const COMMANDS: [Command; 10] = [
    Command {
        name: "dis",
        file: "FILE",
        summary: "what a list file says, an entry a line",
        about: "Each line has the entry's place, its ten hex digits, the register and its data in\n\
                fields and, where the entry is illegal, why. asm takes the text back.",
        options: &[flag(
            "bare",
            "fields alone, without places and digits, to be edited",
        )],
        run: dis::run,
    },
    Command {
        name: "asm",
        file: "FILE",
        summary: "the text of dis, or one written by hand, as a list file",
        about: "A line is an entry: a register and its fields, or ten hex digits, or both, and then\n\
                they are to agree. A place before the digits is not looked at. NAME: before an\n\
                entry is a label; # begins a comment.",
        options: &[
            TO_FILE,
            with_value(
                "labels",
                "FILE",
                "write each label with its start and count to FILE",
            ),
        ],
        run: asm::run,
    },
    Command {
        name: "check",
        file: "FILE",
        summary: "what the library answers to a list file, and why",
        about: "The list is stored and posted. The status is the answer: 0 where it is accepted.",
        options: &[with_value(
            "entries",
            "N",
            "the entries of list memory, 1 to 4096; 4096 if not given",
        )],
        run: check::run,
    },
    Command {
        name: "show",
        file: "FILE",
        summary: "run a list and show the board",
        about: "The board is shown as text, or by half blocks where the terminal has 256 colours, in\n\
                which each pixel is a colour number; with -o it is written as a binary PGM.",
        options: &[
            SIZE,
            with_value("budget", "N", "run in budgets of N steps"),
            with_value(
                "runs",
                "N",
                "stop after N runs, with the board as it is then",
            ),
            FROM,
            FROM_VIRTUAL,
            BUFFER,
            VIEW,
            COLOR,
            output("write the picture to FILE as a PGM and do not show it"),
            LOG,
        ],
        run: show::run,
    },
    Command {
        name: "trace",
        file: "FILE",
        summary: "run a list entry by entry: steps, and the pixels that changed",
        about: "Each entry has a line: its steps, and for each buffer in which pixels changed the\n\
                rectangle that has them all, both corners inside, and how many they are.",
        options: &[
            SIZE,
            flag(
                "picture",
                "show the picture after each entry that changed it",
            ),
            with_value("at", "N", "show the picture after entry N"),
            FROM,
            FROM_VIRTUAL,
            BUFFER,
            VIEW,
            COLOR,
            LOG,
        ],
        run: trace::run,
    },
    Command {
        name: "pack",
        file: "FILE",
        summary: "a list file of edition 1 as one of edition 2",
        about: "Edition 2 has three entries in 14 bytes, for a slow link.",
        options: &[TO_FILE],
        run: convert::pack,
    },
    Command {
        name: "unpack",
        file: "FILE",
        summary: "a list file of edition 2 as one of edition 1",
        about: "The other subcommands take edition 1.",
        options: &[TO_FILE],
        run: convert::unpack,
    },
    Command {
        name: "import",
        file: "PICTURE",
        summary: "a binary PGM as the bytes of a buffer",
        about: "The picture has the board's size and 255 as its greatest grey.",
        options: &[SIZE, TO_FILE],
        run: pictures::import,
    },
    Command {
        name: "export",
        file: "FILE",
        summary: "the bytes of a buffer as a binary PGM",
        about: "The file has a byte for each pixel, row by row.",
        options: &[SIZE, TO_FILE],
        run: pictures::export,
    },
    Command {
        name: "replay",
        file: "LOG",
        summary: "make the calls of a log again and compare the answers",
        about: "It stops at the first answer that is not the log's, with status 1.",
        options: &[
            flag("keep-going", "go on after a difference, and tell them all"),
            flag("verbose", "tell each call and its answer"),
            BUFFER,
            output("write the picture at the end to FILE as a PGM"),
        ],
        run: replay::run,
    },
];
