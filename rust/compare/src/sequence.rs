//! One sequence of calls on both sides, and on the paper board where the sequence is honest.

use crate::call::Call;
use crate::choose::{self, Span};
use crate::difference;
use crate::feeds::Line;
use crate::lists::{self, Size};
use crate::paper;
use crate::random::Random;
use crate::sides::{Engine, Memories, Reference, engine_feed};
use crate::spoil;
use crate::tally::Tally;
use pramolyt::Board;
use reference::{Feed, PaperBoard};
use std::panic::{AssertUnwindSafe, catch_unwind};

/// The names of the kinds.
pub const KINDS: [&str; 2] = ["honest", "hostile"];

/// What a sequence does besides calls.
#[derive(Clone, Copy, PartialEq, Eq)]
pub enum Kind {
    /// Nothing: it begins with make, lends the right memories, and the paper board follows it.
    Honest,
    /// It changes the record and the memories between calls.
    Hostile,
}

/// A sequence under way.
struct Sequence<'a> {
    kind: Kind,
    random: Random,
    engine: Engine,
    reference: Reference,
    paper: Option<PaperBoard>,
    /// The span that was stored or fed last, and whether it was fed.
    stored: Span,
    fed: bool,
    line: Line,
    /// The calls so far, and the last of them.
    calls: u64,
    call: Option<Call>,
    tally: &'a mut Tally,
    shows: bool,
}

/// Plays the sequence that a seed begins; with `shows` each call is printed. The error says what differs, and where.
pub fn play(seed: u64, tally: &mut Tally, shows: bool) -> Result<(), String> {
    let mut sequence = Sequence::new(seed, tally, shows);
    let outcome = catch_unwind(AssertUnwindSafe(|| sequence.play()));
    let outcome = outcome.unwrap_or_else(|_| Err("a panic".to_string()));
    outcome.map_err(|what| sequence.describe(&what))
}

impl Sequence<'_> {
    fn new(seed: u64, tally: &mut Tally, shows: bool) -> Sequence<'_> {
        let mut random = Random::new(seed);
        let kind = random.pick(&[Kind::Honest, Kind::Honest, Kind::Hostile]);
        let (width, height, entries) = sizes(&mut random);
        let (_, record) = reference::make(width, height, entries);
        let memories = memories(&mut random, width, height, entries);
        let feed = Feed::start(0);
        tally.sequence(kind);
        Sequence {
            kind,
            random,
            engine: Engine {
                board: Board::from_words(record.words()),
                feed: engine_feed(&feed),
                output: Vec::new(),
                memories: memories.clone(),
            },
            paper: (kind == Kind::Honest).then(|| paper::begin(width, height, &memories)),
            reference: Reference {
                record,
                feed,
                output: Vec::new(),
                memories,
            },
            stored: (0, 1),
            fed: false,
            line: Line::new(feed),
            calls: 0,
            call: None,
            tally,
            shows,
        }
    }

    fn play(&mut self) -> Result<(), String> {
        let record = self.reference.record;
        self.both(Call::Make {
            width: record.width.into(),
            height: record.height.into(),
            entries: record.entries.into(),
        })?;
        if self.kind == Kind::Hostile && self.random.one_in(2) {
            self.reference.record = spoil::anywhere(&mut self.random, record);
            self.copy_to_engine();
        }
        for _ in 0..self.random.between(10, 150) {
            match self.kind {
                Kind::Hostile if self.random.one_in(3) => self.spoil()?,
                _ => self.choose()?,
            };
        }
        Ok(())
    }

    /// A call that goes by the board's state. A board made on the way is looked at and left.
    fn choose(&mut self) -> Result<(), String> {
        let (random, line) = (&mut self.random, &mut self.line);
        let call = choose::call(random, &self.reference, self.stored, line);
        let record = self.reference.record;
        let is_make = matches!(call, Call::Make { .. });
        self.both(call)?;
        if is_make {
            self.reference.record = record;
            self.engine.board = Board::from_words(record.words());
        }
        Ok(())
    }

    /// A call after hostile changes. They stay at times, where runs are still possible.
    fn spoil(&mut self) -> Result<(), String> {
        let before = self.reference.clone();
        spoil::spoil(&mut self.random, &mut self.reference);
        self.copy_to_engine();
        if self.shows {
            println!("changed to {:?}", self.reference.record);
        }
        self.choose()?;
        let empty_run = Call::Run { budget: 0 };
        if self.reference.call(&empty_run).number != 0 || self.random.one_in(3) {
            self.reference = before;
            self.copy_to_engine();
        }
        Ok(())
    }

    fn copy_to_engine(&mut self) {
        self.engine = Engine {
            board: Board::from_words(self.reference.record.words()),
            feed: engine_feed(&self.reference.feed),
            output: self.reference.output.clone(),
            memories: self.reference.memories.clone(),
        };
    }

    /// One call on both sides; what they leave must be equal, to each other and to the paper board.
    fn both(&mut self, call: Call) -> Result<(), String> {
        self.calls += 1;
        let call = self.call.insert(call);
        let due = self.paper.as_ref().map(|paper| paper::due(paper, call));
        let report = self.engine.call(call);
        if self.shows {
            println!("{}: {call}\n    {report:?}", self.calls);
        }
        let expected = self.reference.call(call);
        difference::of_answers(&report, &expected)?;
        difference::of_sides(&self.engine, &self.reference)?;
        if let (Some(paper), Some(due)) = (&mut self.paper, due) {
            paper::follow(paper, call, &report, &self.reference.record, due)?;
            if !matches!(call, Call::Make { .. }) {
                difference::from_paper(&self.engine, &self.reference.record, paper)?;
            }
        }
        let Reference {
            record, memories, ..
        } = &self.reference;
        self.tally.call(call, &report, record, memories);
        if report.number == 0 {
            self.done();
        }
        Ok(())
    }

    /// What a done call leaves for those after it.
    fn done(&mut self) {
        let feed = self.reference.feed;
        match &self.call {
            Some(Call::Store { first, bytes }) if !bytes.is_empty() => {
                self.stored = (*first, (bytes.len() / lists::ENTRY) as u64);
                self.fed = false;
            }
            Some(Call::FeedStart { .. }) => self.line = Line::new(feed),
            Some(Call::Feed { feed: given, piece }) => {
                self.line.taken(given, piece, feed);
                let completed = feed.next - given.next;
                if completed > 0 {
                    self.stored = fed_span(self.stored, self.fed, given.next, completed);
                    self.fed = true;
                }
            }
            Some(Call::Post { start, count }) if self.fed && self.stored == (*start, *count) => {
                self.tally.fed_list();
            }
            _ => {}
        }
    }

    fn describe(&self, what: &str) -> String {
        let kind = KINDS[self.kind as usize];
        let call = match &self.call {
            Some(call) => call.to_string(),
            None => "none".to_string(),
        };
        format!("{kind} sequence, call {}: {call}\n{what}", self.calls)
    }
}

/// The span of fed entries, which goes on with the one before, up to a length that is cheap to run.
fn fed_span(stored: Span, fed: bool, first: u64, count: u64) -> Span {
    const MOST: u64 = 30;
    let (start, before) = stored;
    if fed && start + before == first && before + count <= MOST {
        (start, before + count)
    } else {
        (first, count.min(MOST))
    }
}

/// Width, height and entries: mostly small, so that a call is cheap.
fn sizes(random: &mut Random) -> (u64, u64, u64) {
    let most = match random.weighted(&[8_000, 2_000, 4_000, 50, 100, 100, 100, 1]) {
        0 => (24, 16),
        1 => (64, 64),
        2 => (100, 12),
        3 => (300, 300),
        4 => return (1, 1, 1 + random.below(40)),
        5 => return (1, 2_048, 1 + random.below(40)),
        6 => return (2_048, 1, 1 + random.below(40)),
        _ => return (2_048, 2_048, 1 + random.below(40)),
    };
    let width = random.between(1, most.0) as u64;
    let height = random.between(1, most.1) as u64;
    let entries = match random.weighted(&[4, 60, 20, 1]) {
        0 => random.between(1, 3),
        1 => random.between(4, 40),
        2 => random.between(40, 160),
        _ => random.pick(&[4_095, 4_096]),
    };
    (width, height, entries as u64)
}

/// Memories of these sizes, with list memory of entries or of any bytes.
fn memories(random: &mut Random, width: u64, height: u64, entries: u64) -> Memories {
    let pixels = (width * height) as usize;
    let size = Size {
        width: width as i64,
        height: height as i64,
    };
    let list = if random.one_in(4) {
        random.bytes(entries as usize * lists::ENTRY)
    } else {
        lists::list(random, size, entries as usize)
    };
    Memories {
        list,
        display: random.bytes(pixels),
        virt: random.bytes(pixels),
    }
}

#[cfg(test)]
mod tests {
    use super::play;
    use crate::compared::Compared;
    use crate::tally::Tally;

    #[test]
    fn some_sequences_show_no_difference() {
        let mut tally = Tally::default();
        for seed in 0..500 {
            assert_eq!(play(seed, &mut tally, false), Ok(()));
        }
        assert!(tally.calls() > 10_000);
    }
}
