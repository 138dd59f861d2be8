//! The two programs, run as a caller would run them.

use std::io::Write;
use std::process::{Command, Stdio};

const DRAW: &str = env!("CARGO_BIN_EXE_reference-draw");
const CALLS: &str = env!("CARGO_BIN_EXE_reference-calls");
const ZERO_ROW: &str = "00 00 00 00 00 00 00 00\n";

/// Status, standard output and standard error of a program given this input.
fn run(program: &str, input: &[u8]) -> (i32, String, String) {
    let mut command = Command::new(program);
    command.stdin(Stdio::piped()).stdout(Stdio::piped());
    let mut child = command.stderr(Stdio::piped()).spawn().unwrap();
    child.stdin.take().unwrap().write_all(input).unwrap();
    let output = child.wait_with_output().unwrap();
    (
        output.status.code().unwrap(),
        String::from_utf8(output.stdout).unwrap(),
        String::from_utf8(output.stderr).unwrap(),
    )
}

#[test]
fn draw_prints_the_example() {
    let input = [
        [0x08, 0x00, 0x00, 0x00, 0x07],
        [0x00, 0x23, 0x80, 0x00, 0x00],
        [0x48, 0x00, 0x00, 0x00, 0x00],
        [0x60, 0x00, 0x04, 0x00, 0x02],
    ];
    let expected = "answer 0 steps 9 idle\n\
        07 07 00 00 00 00 00 00\n\
        00 00 07 07 00 00 00 00\n\
        00 00 00 00 07 00 00 00\n\
        00 00 00 00 00 00 00 00\n";
    assert_eq!(run(DRAW, &input.concat()), (0, expected.into(), "".into()));
}

/// Inputs that leave the picture black: the answer, the steps and the word.
#[test]
fn draw_answers() {
    let nothing = |entries: usize| vec![0; 5 * entries];
    let fill = |width, height| {
        let list = [
            [0x00, 0x13, 0x80, 0x00, 0x00],
            [0x50, width, 0x00, height, 0x00],
            [0x60, 0x00, 0x00, 0x00, 0x00],
        ];
        list.concat()
    };
    // Code 15 everywhere, from a tile that no board of 8 by 4 has.
    let tiled = |flags| {
        let list = [
            [0x00, 0x1F, flags, 0x40, 0x00],
            [0x50, 0x00, 0x09, 0x00, 0x09],
            [0x60, 0x00, 0x05, 0x00, 0x01],
        ];
        list.concat()
    };
    for (input, first_line) in [
        (nothing(0), "answer 3 steps 0 idle"),
        (vec![0; 4], "answer 2 steps 0 idle"),
        (nothing(4_096), "answer 0 steps 4096 idle"),
        (nothing(4_097), "answer 2 steps 0 idle"),
        (vec![0; 20_481], "answer 2 steps 0 idle"),
        (vec![0, 0, 0, 0, 1], "answer 6 steps 0 idle"),
        (fill(0, 1), "answer 0 steps 3 idle"),
        (fill(8, 1), "answer 0 steps 35 idle"),
        (fill(8, 8), "answer 0 steps 35 idle"),
        (tiled(0x00), "answer 0 steps 12 idle"),
        (tiled(0x10), "answer 6 steps 0 idle"),
        (tiled(0x20), "answer 6 steps 0 idle"),
        (tiled(0x80), "answer 6 steps 0 idle"),
    ] {
        let expected = format!("{first_line}\n{}", ZERO_ROW.repeat(4));
        assert_eq!(run(DRAW, &input), (0, expected, "".into()));
    }
}

/// Exactly 1,000,000 steps with nothing left is idle, one more is paused.
#[test]
fn draw_at_the_budget() {
    // 16 lines of 62,254 pixels below the board, with a trigger each, then entries
    // without pixels.
    let (first, last, below) = (-32_768_i16, 29_485_i16, 9_i16);
    let entries = 1_000_000 - 16 * 62_254;
    assert!((18..4_096).contains(&entries));
    for (spare, word) in [(0, "idle"), (1, "paused")] {
        let point = |x: i16| [x.to_be_bytes(), below.to_be_bytes()].concat();
        let mut input = vec![0x00, 0x23, 0x80, 0x00, 0x00, 0x48];
        input.extend(point(first));
        for _ in 0..16 {
            input.push(0x60);
            input.extend(point(last));
        }
        input.resize(5 * (entries + spare), 0);
        let (_, output, _) = run(DRAW, &input);
        assert_eq!(
            output.lines().next(),
            Some(&*format!("answer 0 steps 1000000 {word}"))
        );
    }
}

#[test]
fn calls_report_the_example() {
    let input = include_bytes!("../examples/calls.txt");
    let (status, output, errors) = run(CALLS, input);
    assert_eq!((status, errors), (0, "".into()));
    assert_eq!(output, include_str!("../examples/calls.out"));
}

#[test]
fn calls_name_bad_lines() {
    for (input, message) in [
        ("", "the input has no call"),
        ("# only\n\n", "the input has no call"),
        ("\npost 0 1\n", "line 2: the first call is make"),
        ("make 1 1\n", "line 1: make takes 3 numbers first"),
        ("make 1 1 1 1\n", "line 1: make takes three numbers"),
        ("make 1 1 x\n", "line 1: \"x\" is no number below 2^64"),
        ("make 1 1 1\npost 1\n", "line 2: post takes 2 numbers first"),
        ("make 1 1 1\npost 1 2 3\n", "line 2: post takes two numbers"),
        ("make 1 1 1\nrun 1 2\n", "line 2: run takes one number"),
        ("make 1 1 1\nrun 18446744073709551616\n", "line 2: \"1844"),
        ("make 1 1 1\n#\nstore 0 0g\n", "line 3: \"0g\" is not pairs"),
        (
            "make 1 1 1\nwrite 0 0 123\n",
            "line 2: \"123\" is not pairs",
        ),
        ("make 1 1 1\ndraw 0\n", "line 2: no call is named \"draw\""),
    ] {
        let (status, _, errors) = run(CALLS, input.as_bytes());
        assert_eq!(status, 2, "{input}");
        assert!(errors.starts_with(message), "{errors}");
    }
}

/// A tiled fill cut by its budget: the record printed at the end has the tile.
#[test]
fn calls_show_a_tile() {
    let row: String = (1..17).map(|byte| format!(" {byte:02X}")).collect();
    let input = format!(
        "make 16 8 4\nwrite 1 112{row}\nstore 0 0013014000 5000100008 6000000000\npost 0 3\nrun 5\n"
    );
    let (status, output, _) = run(CALLS, input.as_bytes());
    let zeros = format!("{}\n", ["00"; 16].join(" ")).repeat(7);
    let tile = format!("tile_whole 1\ntile\n{zeros}{}\nfeed", row.trim_start());
    assert_eq!(status, 0);
    assert!(output.contains("visited 2\n") && output.contains(&tile));
}

#[test]
fn calls_after_a_refused_make() {
    let (status, output, _) = run(CALLS, b"make 9 9 0\nwrite 0 0 5A\nwrite 0 1 5A\n");
    let answers: Vec<&str> = output.lines().take(3).collect();
    assert_eq!(status, 0);
    assert_eq!(
        answers,
        [
            "1 make answer 2 place 0 steps 0",
            "2 write answer 0 place 0 steps 0",
            "3 write answer 4 place 0 steps 0"
        ]
    );
    assert!(output.ends_with("display\n5A\nvirtual\n00\npaper board agrees\n"));
}
