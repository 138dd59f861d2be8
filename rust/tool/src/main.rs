//! `pramolyt`: what a display list says, why it is refused and what it draws, entry by entry; and lists written by hand. All
//! that is drawn and judged here is drawn and judged by the proved library.

mod args;
mod asm;
mod check;
mod commands;
mod convert;
mod dis;
mod failure;
mod fields;
mod files;
mod judge;
mod names;
mod paint;
mod pictures;
mod posting;
mod progress;
mod reasons;
mod replay;
mod setup;
mod show;
mod terminal;
mod tokens;
mod trace;

use std::env;
use std::ffi::OsString;
use std::process::ExitCode;

use args::{Asked, Command, Opt};
use commands::{COMMANDS, COMMON};
use failure::{Failure, complain};

const VERSION: &str = concat!("pramolyt ", env!("CARGO_PKG_VERSION"), "\n");

fn main() -> ExitCode {
    let mut args = env::args_os().skip(1);
    let name = args.next().unwrap_or_default();
    let (name, done) = match COMMANDS.iter().find(|command| name == command.name) {
        Some(command) => (command.name, run(command, args)),
        None => ("", without_command(&name)),
    };
    match done {
        Ok(status) => ExitCode::from(status),
        Err(failure) => {
            say(name, &failure);
            ExitCode::from(failure.status())
        }
    }
}

/// Says on standard error what went wrong.
fn say(command: &str, failure: &Failure) {
    let Some(message) = failure.message() else {
        return;
    };
    match failure {
        Failure::Misuse(_) if command.is_empty() => {
            complain(&format!("{message}; see pramolyt --help"));
        }
        Failure::Misuse(_) => {
            complain(&format!(
                "{command}: {message}; see pramolyt {command} --help"
            ));
        }
        _ => complain(message),
    }
}

fn run(command: &Command, args: impl Iterator<Item = OsString>) -> Result<u8, Failure> {
    match args::parse(command, args)? {
        Asked::Run(given) => (command.run)(&given),
        Asked::Help => files::print(&help(command)).map(|()| 0),
        Asked::Version => files::print(VERSION).map(|()| 0),
    }
}

/// What the program does where its first argument is no subcommand.
fn without_command(arg: &OsString) -> Result<u8, Failure> {
    match arg.to_str() {
        Some("--help" | "-h") => files::print(&general_help()).map(|()| 0),
        Some("--version" | "-V") => files::print(VERSION).map(|()| 0),
        Some("") => Err(Failure::Misuse("a command is missing".into())),
        _ => {
            let arg = arg.to_string_lossy();
            Err(Failure::Misuse(format!("there is no command {arg}")))
        }
    }
}

fn general_help() -> String {
    let mut text = String::from(
        "Usage: pramolyt COMMAND [OPTION].. FILE\n\n\
         See what a display list says and draws. FILE - is standard input.\n\nCommands:\n",
    );
    for command in &COMMANDS {
        text += &format!("  {:<8}{}\n", command.name, command.summary);
    }
    text += "\n'pramolyt COMMAND --help' says more of a command, pramolyt(1) everything.\n\
             Status: 0 done, 1 refused, 2 wrong use or a file that cannot be read or written;\n\
             check ends with the library's answer.\n";
    text
}

fn help(command: &Command) -> String {
    let Command {
        name,
        file,
        summary,
        about,
        ..
    } = command;
    let mut text = format!(
        "Usage: pramolyt {name} [OPTION].. {file}\n\n{name}: {summary}.\n{about}\n\nOptions:\n"
    );
    let options = command.options.iter().chain(&COMMON);
    let rows: Vec<_> = options
        .map(|option| (spelled(option), option.help))
        .collect();
    let width = rows.iter().map(|row| row.0.len()).max().unwrap_or(0);
    for (option, help) in rows {
        text += &format!("  {option:<width$}  {help}\n");
    }
    text
}

/// The option as it is written on the command line.
fn spelled(option: &Opt) -> String {
    let letter = option
        .letter
        .map_or(String::from("    "), |letter| format!("-{letter}, "));
    let value = option
        .value
        .map_or(String::new(), |value| format!(" {value}"));
    format!("{letter}--{}{value}", option.name)
}
