//! "Steps": what a step changes, the buffers and the lists apart. The board and
//! the paper board share it.

use crate::drawing::{line_length, point, Buffers, Point};
use crate::entries::{entry_at, flag, opcode, pattern_control, register, Command};
use crate::tiles::Tile;

/// The buffers' size, the registers, the pattern state, the last point, the command under
/// way and its tile.
#[derive(Clone, Copy, PartialEq, Eq, Debug)]
pub struct State {
    pub width: u32,
    pub height: u32,
    pub registers: [u32; register::COUNT],
    pub pattern_place: u32,
    pub pattern_repeat: u32,
    /// The last point as XY1's word.
    pub last: u32,
    pub under_way: bool,
    /// The visited pixels of the command under way.
    pub visited: u32,
    /// The tile of a fill under way, where it was whole.
    pub tile: Option<Tile>,
}

/// What became of a step; an illegal entry is not fetched and is no step.
#[derive(Clone, Copy, PartialEq, Eq, Debug)]
pub enum Step {
    Fetched,
    Visited,
    Illegal,
}

impl State {
    /// "Fresh: all registers zero but MASK 255; pattern at 0, 0; last point (0, 0)".
    pub fn fresh(width: u32, height: u32) -> State {
        let mut registers = [0; register::COUNT];
        registers[register::MASK] = 255;
        State {
            width,
            height,
            registers,
            pattern_place: 0,
            pattern_repeat: 0,
            last: 0,
            under_way: false,
            visited: 0,
            tile: None,
        }
    }

    pub fn command(&self) -> Command {
        Command(self.registers[register::CMD])
    }

    /// "One step is one entry fetched, or one pixel visited."
    pub fn step(&mut self, list: &[u8], next: usize, buffers: &mut Buffers) -> Step {
        if self.under_way {
            self.visit(buffers);
            Step::Visited
        } else if let Some((number, data)) = entry_at(list, next) {
            self.write(number, data);
            self.take_tile(buffers);
            Step::Fetched
        } else {
            Step::Illegal
        }
    }

    /// "XY1 triggers the command in CMD." The pattern state is set "on writing
    /// PCTRL".
    pub fn write(&mut self, number: usize, data: u32) {
        self.registers[number] = data;
        match number {
            register::PCTRL => self.start_pattern(),
            register::XY1 => self.trigger(),
            _ => {}
        }
    }

    /// "The pattern state is a place and a repeat: SPTR and SSCL on writing PCTRL,
    /// and at a line's trigger with PRST."
    fn start_pattern(&mut self) {
        let control = pattern_control(self.registers[register::PCTRL]);
        self.pattern_place = control.start_place;
        self.pattern_repeat = control.start_repeat;
    }

    /// "The last point is XY1 of the latest finished command, NOOP not counted: it
    /// is set in the step that visits the command's last pixel, or at the trigger
    /// where there is none to visit." "SOLID lines do not move it, though PRST still
    /// sets it."
    fn trigger(&mut self) {
        let command = self.command();
        if command.opcode() == opcode::NOOP {
            return;
        }
        if command.is_line() && command.has(flag::PRST) {
            self.start_pattern();
        }
        if self.pixel_count() > 0 {
            self.under_way = true;
        } else {
            self.finish_command();
        }
    }

    /// "Each visit reads source and destination as they stand at that visit."
    fn visit(&mut self, buffers: &mut Buffers) {
        self.draw(self.visited, buffers);
        self.visited += 1;
        if u64::from(self.visited) >= self.pixel_count() {
            self.finish_command();
        }
    }

    /// The last point "is set in the step that visits the command's last pixel".
    /// "the visited pixels with no command under way are all zero". The tile is held
    /// "until the fill ends" (document 02, R-7).
    pub fn finish_command(&mut self) {
        self.last = self.registers[register::XY1];
        self.under_way = false;
        self.visited = 0;
        self.tile = None;
    }

    /// "A blit is to visit only destination pixels inside the buffer and, with CLIP,
    /// inside the clip"; "Lines keep theirs." (document 02, R-6) "With n = max(|dx|,
    /// |dy|), n + 1 pixels"; "NLST leaves out the pixel at B."
    pub fn pixel_count(&self) -> u64 {
        let command = self.command();
        match command.opcode() {
            opcode::BITBLT => self.blit_visits().len() as u64,
            opcode::LINE | opcode::PLINE => {
                let (a, b) = self.line_ends();
                line_length(a, b).unsigned_abs() + u64::from(!command.has(flag::NLST))
            }
            _ => 0,
        }
    }

    /// The pixels of the command under way that are still to be visited.
    pub fn pixels_left(&self) -> u64 {
        if self.under_way {
            self.pixel_count() - u64::from(self.visited)
        } else {
            0
        }
    }

    /// "LINE runs from XY0 to XY1; PLINE from the last point."
    pub fn line_ends(&self) -> (Point, Point) {
        let a = if self.command().opcode() == opcode::PLINE {
            self.last
        } else {
            self.registers[register::XY0]
        };
        (point(a), point(self.registers[register::XY1]))
    }
}
