//! What `show`, `trace`, `replay` and `check` say of random lists, held against the second program: pictures of both buffers,
//! steps, answers and places.

use std::fs;
use std::path::Path;
use std::process::{Command, Output};

use compare::lists::{Size, list};
use compare::random::Random;
use reference::{Record, Report};

/// The entries of list memory.
const ENTRIES: usize = 4_096;

/// A list on a board of the second program.
struct Case {
    size: Size,
    file: Vec<u8>,
    record: Record,
    memory: Vec<u8>,
    buffers: [Vec<u8>; 2],
}

impl Case {
    fn new(random: &mut Random) -> Case {
        let size = Size {
            width: random.between(1, 40),
            height: random.between(1, 30),
        };
        let count = random.between(1, 60) as usize;
        let pixels = (size.width * size.height) as usize;
        let (made, record) = reference::make(size.width as u64, size.height as u64, ENTRIES as u64);
        assert_eq!(made, Report::plain(0));
        Case {
            size,
            file: list(random, size, count),
            record,
            memory: vec![0; 5 * ENTRIES],
            buffers: [random.bytes(pixels), random.bytes(pixels)],
        }
    }

    /// Stores and posts the list.
    fn post(&mut self) -> Report {
        let stored = reference::store(&mut self.record, &mut self.memory, 0, &self.file);
        assert_eq!(stored, Report::plain(0));
        let count = self.file.len() as u64 / 5;
        reference::post(&mut self.record, &self.memory, 0, count)
    }

    fn run(&mut self) -> Report {
        let [display, virt] = &mut self.buffers;
        reference::run(&mut self.record, u64::MAX, &self.memory, display, virt)
    }

    fn picture(&mut self, number: usize) -> Vec<u8> {
        let buffer = &self.buffers[number];
        let mut output = vec![0; buffer.len() + 17];
        let report = reference::export(&mut self.record, number as u64, buffer, &mut output);
        assert_eq!(report.number, 0);
        output.truncate(report.written as usize);
        output
    }
}

/// The program, with the list and the pictures of a case.
struct Program<'a> {
    folder: &'a Path,
    size: String,
}

impl Program<'_> {
    fn new<'a>(folder: &'a Path, case: &mut Case) -> Program<'a> {
        fs::write(folder.join("list"), &case.file).expect("the list");
        for (number, name) in ["display.pgm", "virtual.pgm"].into_iter().enumerate() {
            fs::write(folder.join(name), case.picture(number)).expect("a picture");
        }
        Program {
            folder,
            size: format!("--size={}x{}", case.size.width, case.size.height),
        }
    }

    fn run(&self, args: &[&str]) -> Output {
        let program = env!("CARGO_BIN_EXE_pramolyt");
        let mut command = Command::new(program);
        command.args(args).current_dir(self.folder);
        command.output().expect("the program runs")
    }

    /// `show` or `trace` on the board of the case.
    fn run_on_board(&self, args: &[&str]) -> Output {
        let board = [
            "list",
            &self.size,
            "--from=display.pgm",
            "--from-virtual=virtual.pgm",
        ];
        self.run(&[args, &board].concat())
    }
}

/// The list is refused: all say the answer and the place.
fn refused(program: &Program, report: Report) {
    let place = format!("list: answer {} at entry {}: ", report.number, report.place);
    let check = program.run(&["check", "list"]);
    assert!(check.stdout.starts_with(place.as_bytes()), "{check:?}");
    assert_eq!(check.status.code(), Some(report.number as i32));
    for command in ["show", "trace"] {
        let output = program.run_on_board(&[command]);
        let error = String::from_utf8(output.stderr).expect("text");
        assert!(error.starts_with(&format!("pramolyt: {place}")), "{error}");
        assert_eq!((output.status.code(), output.stdout), (Some(1), vec![]));
    }
}

/// The list is drawn: the pictures and the steps are the second program's, in one go, entry by entry, and by the log of that.
fn drawn(program: &Program, case: &mut Case, budget: &str) {
    let report = case.run();
    assert_eq!(report.number, 0);
    assert_eq!(program.run(&["check", "list"]).status.code(), Some(0));
    let traced = program.run_on_board(&["trace", "--log=log"]);
    let last = format!("answer 0 steps {} idle\n", report.steps);
    assert!(traced.stdout.ends_with(last.as_bytes()), "{traced:?}");
    for (number, buffer) in ["display", "virtual"].into_iter().enumerate() {
        let buffer = format!("--buffer={buffer}");
        let shown = program.run_on_board(&["show", &buffer, "-o", "-", "--budget", budget]);
        assert_eq!(shown.stdout, case.picture(number), "{shown:?}");
        let replayed = program.run(&["replay", "log", &buffer, "-o", "-"]);
        assert_eq!(replayed.stdout, case.picture(number), "{replayed:?}");
    }
}

#[test]
fn random_lists() {
    let folder = Path::new(env!("CARGO_TARGET_TMPDIR")).join("second_program");
    fs::create_dir_all(&folder).expect("a folder");
    let mut random = Random::new(6);
    let (mut legal, mut illegal) = (0, 0);
    for _ in 0..300 {
        let mut case = Case::new(&mut random);
        let program = Program::new(&folder, &mut case);
        let report = case.post();
        match report.number {
            0 => {
                legal += 1;
                let budget = random.pick(&["1", "7", "1000", "100000000"]);
                drawn(&program, &mut case, budget);
            }
            _ => {
                illegal += 1;
                refused(&program, report);
            }
        }
    }
    assert!(
        legal > 200 && illegal > 15,
        "{legal} legal, {illegal} illegal"
    );
}
