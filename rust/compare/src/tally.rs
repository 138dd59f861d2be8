//! What came up: the calls by kind and answer, the steps, and the commands that budgets cut.

use crate::call::{ALLOWED, CALLS, Call};
use crate::compared::Compared;
use crate::lists::ENTRY;
use crate::sequence::{self, KINDS, Kind};
use crate::sides::Memories;
use crate::stipples::{STIPPLES, Stipple, ignores_bits, reads_bits};
use crate::tiles::{self, FILLS, Fill, ILLEGAL, SPOILED, is_tiled};
use crate::visits::{self, CUT, ENDS, Hidden, NOTHING, VISITED};
use reference::entries::{Command, flag, opcode};
use reference::{Feed, Record, Report};

/// A kind of command, by name.
type Commands = (&'static str, fn(Command) -> bool);

const COMMANDS: [Commands; 6] = [
    ("BITBLT", is_blit),
    ("stippled BITBLT", reads_bits),
    ("BITBLT with SOLID and STPL", ignores_bits),
    ("tiled BITBLT", is_tiled),
    ("LINE", |command| command.opcode() == opcode::LINE),
    ("PLINE", |command| command.opcode() == opcode::PLINE),
];

const BLITS: [Commands; 3] = [
    ("blit", is_blit),
    ("stippled blit", reads_bits),
    ("tiled blit", is_tiled),
];

const FLAGS: [(&str, u32); 10] = [
    ("SOLID", flag::SOLID),
    ("TRNSP", flag::TRNSP),
    ("STPL", flag::STPL),
    ("KEY", flag::KEY),
    ("NLST", flag::NLST),
    ("PRST", flag::PRST),
    ("CLIP", flag::CLIP),
    ("source", flag::SOURCE),
    ("destination", flag::DESTINATION),
    ("APAT", flag::APAT),
];

/// The grounds of a bad feed record, each alone, in the order of [`Feed::faults`].
const BAD_FEEDS: [&str; 3] = [
    "the next entry is past the end",
    "more than four held bytes",
    "an unused byte is not zero",
];

/// A run of more steps has drawn a line whose length takes more than 15 bits.
const LONG: u64 = 40_000;

/// The counts.
#[derive(Default)]
pub struct Tally {
    sequences: [u64; KINDS.len()],
    answers: [[u64; 12]; CALLS.len()],
    steps: u64,
    /// The steps of the longest run.
    longest: u64,
    /// Commands left under way by a run: by kind and raster code, by flag, blits by XY3,
    /// stippled blits by what they do.
    codes: [[u64; 16]; COMMANDS.len()],
    flags: [u64; FLAGS.len()],
    directions: [[u64; 4]; BLITS.len()],
    stipples: [u64; STIPPLES.len()],
    /// Partly hidden blits left under way by a run: by what they do, and by the hidden end and XY3.
    hidden: [u64; CUT.len()],
    ends: [[u64; 4]; ENDS.len()],
    /// Runs whose last step triggered a blit with nothing to show.
    nothing: [u64; NOTHING.len()],
    /// Records with a partly hidden blit under way, by its visited pixels.
    visited: [u64; VISITED.len()],
    /// Tiled fills left under way by a run, by what they do.
    fills: [u64; FILLS.len()],
    /// Runs whose last step triggered a tiled fill with nothing to show.
    tiled_nothing: u64,
    /// Calls with a tile in the record that they leave, which is not malformed.
    tile_held: [u64; CALLS.len()],
    /// Calls refused for their record's tile alone, by what is wrong with it and by kind; posts refused for APAT alone.
    spoiled: [u64; SPOILED.len()],
    spoiled_calls: [u64; CALLS.len()],
    illegal: [u64; ILLEGAL.len()],
    /// Accepted feeds by the bytes held before and after.
    held: [[u64; 5]; 5],
    /// Accepted feeds at the end of list memory, which complete nothing.
    at_the_end: u64,
    /// Feeds refused for one ground of a bad feed record alone.
    bad_feeds: [u64; BAD_FEEDS.len()],
    /// Posts of lists that were fed.
    fed_lists: u64,
}

impl Tally {
    /// Counts a sequence.
    pub fn sequence(&mut self, kind: Kind) {
        self.sequences[kind as usize] += 1;
    }

    /// Counts a call, with the record and the memories that it left.
    pub fn call(&mut self, call: &Call, report: &Report, record: &Record, memories: &Memories) {
        self.answers[call.kind()][report.number as usize] += 1;
        self.steps += report.steps;
        self.longest = self.longest.max(report.steps);
        if report.steps > 0 && record.under_way == 1 {
            self.cut(record, memories);
        }
        if record.under_way == 1 {
            for kind in visits::visited_kinds(record, &record.faults()) {
                self.visited[kind] += 1;
            }
        } else if report.steps > 0
            && let Some(why) = visits::nothing_to_show(record, &memories.list)
        {
            self.nothing[why] += 1;
            self.tiled_nothing += u64::from(is_tiled(record.state().command()));
        }
        if record.tile_whole == 1 && !record.malformed() {
            self.tile_held[call.kind()] += 1;
        }
        match report.number {
            1 => {
                if let Some(kind) = tiles::spoiled_kind(record, &record.faults()) {
                    self.spoiled[kind] += 1;
                    self.spoiled_calls[call.kind()] += 1;
                }
            }
            6 => {
                if let Some(kind) = tiles::illegal_kind(&memories.list, report.place) {
                    self.illegal[kind] += 1;
                }
            }
            _ => {}
        }
        if let Call::Feed { feed, piece } = call {
            self.feed(feed, piece, report, record);
        }
    }

    /// Counts an accepted post of a list that was fed.
    pub fn fed_list(&mut self) {
        self.fed_lists += 1;
    }

    fn feed(&mut self, feed: &Feed, piece: &[u8], report: &Report, record: &Record) {
        let entries = u64::from(record.entries);
        if report.number == 0 {
            let held = feed.count as usize;
            self.held[held][(held + piece.len()) % ENTRY] += 1;
            self.at_the_end += u64::from(feed.next == entries);
        } else if let (1, [fault], false) =
            (report.number, &feed.faults(entries)[..], record.malformed())
        {
            let which = BAD_FEEDS.iter().position(|ground| ground == fault);
            self.bad_feeds[which.expect("a ground by its name")] += 1;
        }
    }

    fn cut(&mut self, record: &Record, memories: &Memories) {
        let command = record.state().command();
        for (counts, (_, is)) in self.codes.iter_mut().zip(COMMANDS) {
            counts[command.raster_code() as usize] += u64::from(is(command));
        }
        for (count, (_, flag)) in self.flags.iter_mut().zip(FLAGS) {
            *count += u64::from(command.has(flag));
        }
        for (counts, (_, is)) in self.directions.iter_mut().zip(BLITS) {
            counts[record.xy3 as usize] += u64::from(is(command));
        }
        if let Some(blit) = Stipple::under_way(record) {
            for (count, (_, does)) in self.stipples.iter_mut().zip(STIPPLES) {
                *count += u64::from(does(&blit));
            }
        }
        if let Some(blit) = Hidden::under_way(record) {
            for (count, (_, does)) in self.hidden.iter_mut().zip(CUT) {
                *count += u64::from(does(&blit));
            }
            for (counts, (_, does)) in self.ends.iter_mut().zip(ENDS) {
                counts[record.xy3 as usize] += u64::from(does(&blit));
            }
        }
        if let Some(fill) = Fill::under_way(record, memories) {
            for (count, (_, does)) in self.fills.iter_mut().zip(FILLS) {
                *count += u64::from(does(&fill));
            }
        }
    }
}

impl Compared for Tally {
    const UNIT: &'static str = "sequence";
    const CALLS: &'static str = "calls";
    const REPLAY: &'static str = "replay";

    fn play(&mut self, seed: u64, shows: bool) -> Result<(), String> {
        sequence::play(seed, self, shows)
    }

    fn calls(&self) -> u64 {
        self.answers.iter().flatten().sum()
    }

    fn add(&mut self, other: &Tally) {
        add(&mut self.sequences, &other.sequences);
        add(
            self.answers.as_flattened_mut(),
            other.answers.as_flattened(),
        );
        self.steps += other.steps;
        self.longest = self.longest.max(other.longest);
        add(self.codes.as_flattened_mut(), other.codes.as_flattened());
        add(&mut self.flags, &other.flags);
        add(
            self.directions.as_flattened_mut(),
            other.directions.as_flattened(),
        );
        add(&mut self.stipples, &other.stipples);
        add(&mut self.hidden, &other.hidden);
        add(self.ends.as_flattened_mut(), other.ends.as_flattened());
        add(&mut self.nothing, &other.nothing);
        add(&mut self.visited, &other.visited);
        add(&mut self.fills, &other.fills);
        self.tiled_nothing += other.tiled_nothing;
        add(&mut self.tile_held, &other.tile_held);
        add(&mut self.spoiled, &other.spoiled);
        add(&mut self.spoiled_calls, &other.spoiled_calls);
        add(&mut self.illegal, &other.illegal);
        add(self.held.as_flattened_mut(), other.held.as_flattened());
        self.at_the_end += other.at_the_end;
        add(&mut self.bad_feeds, &other.bad_feeds);
        self.fed_lists += other.fed_lists;
    }

    fn coverage(&self) -> Vec<(String, bool)> {
        let mut checks = Vec::new();
        for (name, count) in KINDS.iter().zip(self.sequences) {
            checks.push((format!("{name} sequences without a difference"), count > 0));
        }
        for (call, allowed) in ALLOWED.iter().enumerate() {
            for &number in *allowed {
                let name = format!("{} answers {number}", CALLS[call]);
                checks.push((name, self.answers[call][number] > 0));
            }
        }
        checks.push((
            format!("a run of more than {LONG} steps"),
            self.longest > LONG,
        ));
        for (counts, (name, _)) in self.codes.iter().zip(COMMANDS) {
            let name = format!("{name} is cut under every raster code");
            checks.push((name, counts.iter().all(|&count| count > 0)));
        }
        for (&count, (name, _)) in self.flags.iter().zip(FLAGS) {
            checks.push((format!("a command with {name} is cut"), count > 0));
        }
        for (counts, (name, _)) in self.directions.iter().zip(BLITS) {
            for (direction, &count) in counts.iter().enumerate() {
                checks.push((format!("a {name} with XY3 {direction} is cut"), count > 0));
            }
        }
        for (&count, (name, _)) in self.stipples.iter().zip(STIPPLES) {
            checks.push((format!("a stippled blit that {name} is cut"), count > 0));
        }
        for (&count, (name, _)) in self.hidden.iter().zip(CUT) {
            checks.push((
                format!("a partly hidden blit that {name} is cut"),
                count > 0,
            ));
        }
        for (counts, (end, _)) in self.ends.iter().zip(ENDS) {
            let name = format!("a blit with a hidden {end} is cut under every XY3");
            checks.push((name, counts.iter().all(|&count| count > 0)));
        }
        for (why, &count) in NOTHING.iter().zip(&self.nothing) {
            checks.push((format!("a blit with nothing to show, {why}"), count > 0));
        }
        for (name, &count) in VISITED.iter().zip(&self.visited) {
            checks.push((format!("visited pixels of a hidden blit {name}"), count > 0));
        }
        for (&count, (name, _)) in self.fills.iter().zip(FILLS) {
            checks.push((format!("a tiled fill that {name} is cut"), count > 0));
        }
        let tiled_nothing = "a tiled fill with nothing to show".to_string();
        checks.push((tiled_nothing, self.tiled_nothing > 0));
        for (name, &count) in SPOILED.iter().zip(&self.spoiled) {
            checks.push((format!("a record is refused, {name}"), count > 0));
        }
        for (call, name) in CALLS.iter().enumerate() {
            if ALLOWED[call].contains(&1) {
                let held = format!("{name} with a tile held");
                checks.push((held, self.tile_held[call] > 0));
                let spoiled = format!("{name} is refused for the record's tile");
                checks.push((spoiled, self.spoiled_calls[call] > 0));
            }
        }
        for (name, &count) in ILLEGAL.iter().zip(&self.illegal) {
            checks.push((format!("APAT with {name} is refused"), count > 0));
        }
        for (held, counts) in self.held.iter().enumerate() {
            let name = format!("feeds with {held} held bytes leave 0 to 4");
            checks.push((name, counts.iter().all(|&count| count > 0)));
        }
        for (name, count) in BAD_FEEDS.iter().zip(self.bad_feeds) {
            checks.push((format!("a feed is refused, {name}"), count > 0));
        }
        let at_the_end = "a feed at the end of list memory".to_string();
        checks.push((at_the_end, self.at_the_end > 0));
        checks.push(("a fed list is posted".to_string(), self.fed_lists > 0));
        checks
    }

    fn print(&self) {
        let calls = self.calls();
        println!(
            "{calls} calls, {} steps, {} in the longest run",
            self.steps, self.longest
        );
        for (name, count) in KINDS.iter().zip(self.sequences) {
            println!("{count} {name} sequences");
        }
        print!("{:<13}", "answer");
        (0..12).for_each(|number| print!("{number:>10}"));
        println!();
        for (name, counts) in CALLS.iter().zip(&self.answers) {
            print!("{name:<13}");
            counts.iter().for_each(|count| print!("{count:>10}"));
            println!();
        }
        println!("commands that a budget cut:");
        for (counts, (name, _)) in self.codes.iter().zip(COMMANDS) {
            println!("  {name} by raster code {counts:?}");
        }
        for (count, (name, _)) in self.flags.iter().zip(FLAGS) {
            print!("  {name} {count}");
        }
        println!();
        for (counts, (name, _)) in self.directions.iter().zip(BLITS) {
            println!("  {name}s by XY3 {counts:?}");
        }
        println!("stippled blits that a budget cut, each");
        for (count, (name, _)) in self.stipples.iter().zip(STIPPLES) {
            println!("  {name} {count}");
        }
        println!("partly hidden blits that a budget cut, each");
        for (count, (name, _)) in self.hidden.iter().zip(CUT) {
            println!("  {name} {count}");
        }
        for (counts, (end, _)) in self.ends.iter().zip(ENDS) {
            println!("  {end} hidden by XY3 {counts:?}");
        }
        println!("blits with nothing to show {:?}", self.nothing);
        println!("partly hidden blits by visited pixels {:?}", self.visited);
        println!("tiled fills that a budget cut, each");
        for (count, (name, _)) in self.fills.iter().zip(FILLS) {
            println!("  {name} {count}");
        }
        println!("tiled fills with nothing to show {}", self.tiled_nothing);
        println!("  calls with a tile held {:?}", self.tile_held);
        for (name, count) in SPOILED.iter().zip(self.spoiled) {
            println!("  refused, {name} {count}");
        }
        println!(
            "  calls refused for the record's tile {:?}",
            self.spoiled_calls
        );
        for (name, count) in ILLEGAL.iter().zip(self.illegal) {
            println!("  refused, APAT with {name} {count}");
        }
        println!("feeds by held bytes before and after {:?}", self.held);
        println!("  at the end of list memory {}", self.at_the_end);
        for (name, count) in BAD_FEEDS.iter().zip(self.bad_feeds) {
            println!("  refused, {name} {count}");
        }
        println!("  fed lists posted {}", self.fed_lists);
    }
}

fn is_blit(command: Command) -> bool {
    command.opcode() == opcode::BITBLT
}

fn add(counts: &mut [u64], others: &[u64]) {
    for (count, other) in counts.iter_mut().zip(others) {
        *count += other;
    }
}
