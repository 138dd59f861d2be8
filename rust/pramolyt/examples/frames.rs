//! A ship comes alongside, on a board that is redrawn frame by frame. Three display lists each redraw the whole board, with
//! the ship further on. A frame has a budget of steps; what it does not finish goes on in the next.
//!
//! The program shows a list posted while another is being drawn; a third list refused while two wait, and posted again in
//! each frame until it is accepted; list memory changed by a fault, which stops a run, and two ways to go on.
//! With a file name as its argument it writes a log of its calls into that file, for `pramolyt replay`. `examples/c/frames.c` is
//! the same in C.

use std::error::Error;

use call_log::{Log, LoggedBoard};
use pramolyt::Answer;
use pramolyt::list::{
    ENTRY_BYTES, Entry, Flags, Opcode, RasterCode, Register, command, point, size,
};

const WIDTH: usize = 20;
const HEIGHT: usize = 4;
const LISTS: usize = 3;
const COUNT: usize = 12;
const ENTRIES: usize = LISTS * COUNT;
const BUDGET: u64 = 40;

const WATER: u32 = 1;
const QUAY: u32 = 2;
const SHIP: u32 = 3;

const FAULT_FRAME: usize = 6;
const FAULT_ENTRY: usize = 23;
const LATER_FAULT_ENTRY: usize = 7;

/// The word of the record that has the next entry.
const NEXT: usize = 9;

/// A filled rectangle, four entries.
fn fill(colour: u32, size: u32, corner: u32) -> [Entry; 4] {
    [
        Entry::new(Register::Fore, colour),
        Entry::new(
            Register::Cmd,
            command(Opcode::Bitblt, RasterCode::Copy, Flags::SOLID),
        ),
        Entry::new(Register::Xy2, size),
        Entry::new(Register::Xy1, corner),
    ]
}

/// A line, four entries.
fn line(colour: u32, from: u32, to: u32) -> [Entry; 4] {
    [
        Entry::new(Register::Fore, colour),
        Entry::new(
            Register::Cmd,
            command(Opcode::Line, RasterCode::Copy, Flags::SOLID),
        ),
        Entry::new(Register::Xy0, from),
        Entry::new(Register::Xy1, to),
    ]
}

/// The lists: water, the quay, and the ship, further right in each.
fn lists() -> Vec<u8> {
    let (right, bottom) = (WIDTH as i16 - 1, HEIGHT as i16 - 1);
    let mut entries = Vec::new();
    for k in 0..LISTS as i16 {
        entries.extend(fill(WATER, size(WIDTH, HEIGHT), point(0, 0)));
        entries.extend(line(QUAY, point(0, bottom), point(right, bottom)));
        entries.extend(fill(SHIP, size(5, 2), point(1 + 6 * k, 1)));
    }
    entries.into_iter().flat_map(Entry::to_bytes).collect()
}

/// A board, its three memories, and the program's own copy of the lists, COUNT entries each.
struct Panel {
    board: LoggedBoard,
    memory: [u8; ENTRY_BYTES * ENTRIES],
    display: [u8; WIDTH * HEIGHT],
    virt: [u8; WIDTH * HEIGHT],
    lists: Vec<u8>,
}

impl Panel {
    fn new(log: Log) -> Result<Panel, Answer> {
        let (made, board) = LoggedBoard::make(log, WIDTH, HEIGHT, ENTRIES);
        made.ok()?;
        Ok(Panel {
            board,
            memory: [0; ENTRY_BYTES * ENTRIES],
            display: [0; WIDTH * HEIGHT],
            virt: [0; WIDTH * HEIGHT],
            lists: lists(),
        })
    }

    fn store(&mut self, first: usize, count: usize) -> Answer {
        let bytes = &self.lists[ENTRY_BYTES * first..ENTRY_BYTES * (first + count)];
        self.board.store(&mut self.memory, first, bytes)
    }

    fn post(&mut self, list: usize) -> Answer {
        self.board.post(&self.memory, COUNT * list, COUNT)
    }

    fn run(&mut self, budget: u64) -> Answer {
        self.board
            .run(budget, &self.memory, &mut self.display, &mut self.virt)
    }

    fn next(&self) -> usize {
        self.board.board().words()[NEXT] as usize
    }

    /// What no call does: a bit of an entry changes. The entry now names a register that there is not, so that a run stops
    /// there; a change that leaves an entry legal is not noticed.
    fn damage(&mut self, entry: usize) {
        let mut changed = [0; ENTRY_BYTES];
        changed.copy_from_slice(&self.memory[ENTRY_BYTES * entry..][..ENTRY_BYTES]);
        changed[0] ^= 0x80;
        self.board.overwrite(&mut self.memory, entry, &changed);
        println!("  a fault changes entry {entry}");
    }

    /// Posts a list and gives whether it was accepted. While two lists wait it is not: the frame goes on without it.
    fn try_post(&mut self, list: usize) -> Result<bool, Answer> {
        let answer = self.post(list);
        if answer == Answer::SlotsFull {
            println!(
                "  post of list {}: answer 5, both slots are taken",
                list + 1
            );
            return Ok(false);
        }
        answer.ok()?;
        println!("  post of list {}: answer 0", list + 1);
        Ok(true)
    }

    /// A run has come to an illegal entry. Another run would come to it again, and a store is refused, since the list still
    /// holds the entry. So the program writes its own copy of the entry over it. The run then goes on where it stopped.
    fn mend(&mut self) {
        let entry = self.next();
        let again = self.run(BUDGET);
        assert!(matches!(again, Answer::IllegalFetch { .. }), "{again:?}");
        let steps = again.steps();
        println!("  run again: answer 9 at entry {entry}, {steps} steps");
        assert_eq!(self.store(entry, 1), Answer::EntryHeld);
        println!("  store of entry {entry}: answer 8, a list holds it");
        let copy = &self.lists[ENTRY_BYTES * entry..][..ENTRY_BYTES];
        self.board.overwrite(&mut self.memory, entry, copy);
        println!("  entry {entry} is written back");
    }

    /// Draws for a frame's budget of steps.
    fn run_frame(&mut self) -> Result<(), Answer> {
        let mut left = BUDGET;
        let mut answer = self.run(left);
        while let Answer::IllegalFetch { steps } = answer {
            println!("  run: answer 9 at entry {}, {steps} steps", self.next());
            left -= steps;
            self.mend();
            answer = self.run(left);
        }
        println!("  run: answer 0, {} steps", answer.ok()?);
        Ok(())
    }

    fn print(&self) {
        for row in self.display.chunks(WIDTH) {
            let row: String = row
                .iter()
                .map(|&pixel| [' ', '~', '=', '#'][usize::from(pixel)])
                .collect();
            println!("|{row}|");
        }
    }

    /// Frames until every list is posted and drawn.
    fn run_frames(&mut self) -> Result<(), Answer> {
        let mut posted = 0;
        let mut frame = 1;
        while posted < LISTS || !self.board.board().is_idle() {
            println!("frame {frame}");
            if posted < LISTS && self.try_post(posted)? {
                posted += 1;
            }
            if frame == FAULT_FRAME {
                self.damage(FAULT_ENTRY);
            }
            self.run_frame()?;
            self.print();
            frame += 1;
        }
        Ok(())
    }

    /// The other way to go on, which needs no entry to be put right: the board is made anew. No list is posted then, registers
    /// are fresh, and the pictures stay as they are. A post finds the damage, and a store is no longer refused.
    fn make_anew(&mut self) -> Result<(), Answer> {
        println!("once more");
        self.post(0).ok()?;
        self.damage(LATER_FAULT_ENTRY);
        let stopped = self.run(1000);
        assert!(
            matches!(stopped, Answer::IllegalFetch { .. }),
            "{stopped:?}"
        );
        let steps = stopped.steps();
        println!("  run: answer 9 at entry {}, {steps} steps", self.next());
        self.board.make_anew(WIDTH, HEIGHT, ENTRIES).ok()?;
        println!("  the board is made anew");
        let refused = self.post(0);
        assert!(
            matches!(refused, Answer::IllegalEntry { .. }),
            "{refused:?}"
        );
        println!("  post of list 1: answer 6 at entry {}", refused.place());
        self.store(0, COUNT).ok()?;
        println!("  store of list 1: answer 0");
        self.post(0).ok()?;
        println!("  post of list 1: answer 0");
        println!("  run: answer 0, {} steps", self.run(1000).ok()?);
        self.print();
        Ok(())
    }
}

fn main() -> Result<(), Box<dyn Error>> {
    let mut panel = Panel::new(Log::to_argument(1)?)?;
    panel.store(0, ENTRIES).ok()?;
    println!("{LISTS} lists of {COUNT} entries, {BUDGET} steps a frame");
    panel.run_frames()?;
    panel.make_anew()?;
    panel.board.finish()?;
    Ok(())
}
