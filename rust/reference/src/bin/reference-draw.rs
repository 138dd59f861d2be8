//! The program of "Boards to check": "reads entries on standard input to the front
//! of a zeroed 4,096 entry memory, posts them on a zeroed 8 by 4 board, runs with
//! budget 1,000,000, prints display rows in hex, two upper-case digits a byte."

use reference::text::hex_rows;
use reference::{make, post, run, Report};
use std::io::{Read, Write};

const ENTRIES: usize = 4_096;
const BUDGET: u64 = 1_000_000;

fn main() -> std::io::Result<()> {
    let mut input = Vec::new();
    std::io::stdin().read_to_end(&mut input)?;
    std::io::stdout().write_all(draw(&input).as_bytes())
}

/// "Input not a multiple of 5 or above 20,480 bytes gives answer 2." "The last word
/// is "paused" where work is left. After a refusal steps are 0, the word is "idle"
/// and the zero rows follow."
fn draw(input: &[u8]) -> String {
    let (_, mut record) = make(8, 4, ENTRIES as u64);
    let mut list = vec![0; 5 * ENTRIES];
    let mut display = vec![0; 8 * 4];
    let mut virt = vec![0; 8 * 4];
    let report = if !input.len().is_multiple_of(5) || input.len() > list.len() {
        Report::plain(2)
    } else {
        list[..input.len()].copy_from_slice(input);
        let posted = post(&mut record, &list, 0, input.len() as u64 / 5);
        if posted.number == 0 {
            run(&mut record, BUDGET, &list, &mut display, &mut virt)
        } else {
            posted
        }
    };
    let word = if record.active_taken == 1 {
        "paused"
    } else {
        "idle"
    };
    let Report { number, steps, .. } = report;
    let rows = hex_rows(&display, record.width);
    format!("answer {number} steps {steps} {word}\n{rows}")
}
