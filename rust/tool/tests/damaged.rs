//! Damaged files of every kind, given to every subcommand: each ends with a status of its own and, where it refuses, with one
//! line that begins with the program's name.

use std::io::Write;
use std::process::{Command, Output, Stdio};

use compare::random::Random;

/// A list, a list of edition 2, assembler text, a picture and a log.
const FILES: [&[u8]; 5] = [
    b"\x08\0\0\0\x07\0\x23\x80\0\0\x48\0\0\0\0\x60\0\x04\0\x02",
    b"\x04\x09\0\0\0\x07\x23\x80\0\0\0\0\0\0\x33\xFF\0\x04\0\x02\0\0\0\0\0\0\0\0",
    b"a: FORE 7 # one\n1 0023800000 CMD LINE copy SOLID\nXY0 (0, -1)\nXY2 3 by 4\nPCTRL length 3 scale 2\n",
    b"P5 # one\n4 2 255\n\0\x01\x02\x03\x04\x05\x06\x07",
    b"make 4 2 4 = 0\nstore 0 0800000007 = 0\nfeed 1 1 08000000 000000 = 0 feed 1 4 08000000\npost 0 1 = 0\nrun 9 = 0 steps 1\n\
      write 1 0 01 = 0\nexport 0 1 = 4\nimport 0 50 = 11\noverwrite 0 68\n",
];

const COMMANDS: [&[&str]; 10] = [
    &["dis", "-"],
    &["asm", "-"],
    &["check", "-"],
    &["show", "-", "--size=4x2"],
    &["trace", "-", "--size=4x2", "--picture"],
    &["pack", "-"],
    &["unpack", "-"],
    &["import", "-", "--size=4x2"],
    &["export", "-", "--size=4x2"],
    &["replay", "-", "--keep-going"],
];

fn run(args: &[&str], input: &[u8]) -> Output {
    let mut command = Command::new(env!("CARGO_BIN_EXE_pramolyt"));
    command.args(args).stdin(Stdio::piped());
    command.stdout(Stdio::piped()).stderr(Stdio::piped());
    let mut child = command.spawn().expect("the program runs");
    let mut stdin = child.stdin.take().expect("a pipe");
    stdin.write_all(input).expect("the program reads its input");
    drop(stdin);
    child.wait_with_output().expect("the program ends")
}

/// A file that is cut short, or in which bytes are changed, left out or put in.
fn damaged(random: &mut Random, file: &[u8]) -> Vec<u8> {
    let mut file = file.to_vec();
    for _ in 0..random.between(1, 3) {
        let at = random.below(file.len() as u64 + 1) as usize;
        match random.below(4) {
            0 => file.truncate(at),
            1 if at < file.len() => file[at] ^= 1 << random.below(8),
            2 if at < file.len() => drop(file.remove(at)),
            _ => file.insert(at, random.word() as u8),
        }
    }
    file
}

/// The program ended by itself, and said one line where it refused.
fn ends_well(args: &[&str], file: &[u8], output: &Output) {
    let status = output.status.code().expect("no signal");
    let said = String::from_utf8_lossy(&output.stderr);
    let lines = said.lines().count();
    let context = format!("{args:?} of {file:02X?}: status {status}, {said}");
    match args[0] {
        "check" => {
            assert!([0, 2, 3, 4, 6].contains(&status) && lines == 0, "{context}");
            let answer = format!("answer {status}");
            assert!(
                String::from_utf8_lossy(&output.stdout).contains(&answer),
                "{context}"
            );
        }
        "replay" => assert!((status == 1) == (lines > 0) && status < 2, "{context}"),
        _ => assert!(lines == usize::from(status == 1) && status < 2, "{context}"),
    }
    assert!(
        said.lines().all(|line| line.starts_with("pramolyt: ")),
        "{context}"
    );
}

#[test]
fn every_command_ends_well() {
    let mut random = Random::new(7);
    let mut refused = 0;
    for _ in 0..60 {
        for file in FILES {
            let file = damaged(&mut random, file);
            for args in [random.pick(&COMMANDS), random.pick(&COMMANDS)] {
                let output = run(args, &file);
                ends_well(args, &file, &output);
                refused += u32::from(output.status.code() != Some(0));
            }
        }
    }
    assert!((200..600).contains(&refused), "{refused}");
}

#[test]
fn whole_files_are_taken_by_their_own_command() {
    // the places among COMMANDS
    let own: [&[usize]; 5] = [&[0, 2, 3, 4, 5], &[6], &[1], &[7], &[9]];
    let mut random = Random::new(8);
    for (file, commands) in FILES.into_iter().zip(own) {
        for &command in commands {
            let args = COMMANDS[command];
            let whole = run(args, file);
            assert_eq!(whole.status.code(), Some(0), "{args:?}: {whole:?}");
            for _ in 0..40 {
                let file = damaged(&mut random, file);
                ends_well(args, &file, &run(args, &file));
            }
        }
    }
}
