//! A board, the memories lent to it and the paper board beside it: the calls of a
//! sequence, each held against the claim of demand 3.

use crate::calls::{self, Report};
use crate::feeds::{self, Feed};
use crate::paper::PaperBoard;
use crate::pictures;
use crate::record::Record;

pub struct Sequence {
    pub record: Record,
    pub list: Vec<u8>,
    pub display: Vec<u8>,
    pub virt: Vec<u8>,
    pub paper: PaperBoard,
    fault: Option<String>,
}

impl Sequence {
    /// A fresh board, whether make was done or refused, with zeroed memories of its
    /// sizes.
    pub fn make(width: u64, height: u64, entries: u64) -> (Report, Sequence) {
        let (report, record) = calls::make(width, height, entries);
        let pixels = record.width as usize * record.height as usize;
        let list = vec![0; 5 * record.entries as usize];
        let buffer = vec![0; pixels];
        let paper = PaperBoard::new(
            record.width.into(),
            record.height.into(),
            list.clone(),
            buffer.clone(),
            buffer.clone(),
        );
        let sequence = Sequence {
            record,
            list,
            display: buffer.clone(),
            virt: buffer,
            paper,
            fault: None,
        };
        (report, sequence)
    }

    pub fn post(&mut self, start: u64, count: u64) -> Report {
        let report = calls::post(&mut self.record, &self.list, start, count);
        self.paper.post(start, count, report.number == 0);
        self.check(report)
    }

    pub fn store(&mut self, first: u64, bytes: &[u8]) -> Report {
        let report = calls::store(&mut self.record, &mut self.list, first, bytes);
        self.paper.store(first, bytes, report.number == 0);
        self.check(report)
    }

    /// Feeds a piece; the feed record is the caller's to keep.
    pub fn feed(&mut self, feed: &mut Feed, piece: &[u8]) -> Report {
        let given = *feed;
        let report = feeds::feed(&mut self.record, feed, &mut self.list, piece);
        self.paper.feed(&given, piece, report.number == 0);
        self.check(report)
    }

    pub fn window_write(&mut self, number: u64, offset: u64, bytes: &[u8]) -> Report {
        let (record, buffer) = self.record_and_buffer(number);
        let report = calls::window_write(record, number, offset, bytes, buffer);
        self.paper
            .window_write(number, offset, bytes, report.number == 0);
        self.check(report)
    }

    /// Exports a buffer; the paper board is as it was.
    pub fn export(&mut self, number: u64, output: &mut [u8]) -> Report {
        let (record, buffer) = self.record_and_buffer(number);
        let report = pictures::export(record, number, buffer, output);
        self.check(report)
    }

    pub fn import(&mut self, number: u64, picture: &[u8]) -> Report {
        let (record, buffer) = self.record_and_buffer(number);
        let report = pictures::import(record, number, picture, buffer);
        self.paper.import(number, picture, report.number == 0);
        self.check(report)
    }

    /// The record, and the buffer that is lent for a number: the display where there is
    /// none of that number.
    fn record_and_buffer(&mut self, number: u64) -> (&mut Record, &mut [u8]) {
        let buffer = if number == 1 {
            &mut self.virt
        } else {
            &mut self.display
        };
        (&mut self.record, buffer)
    }

    /// "A run that answers 0 reports the lesser of its budget and the steps that
    /// would empty the queue."
    pub fn run(&mut self, budget: u64) -> Report {
        let lesser = budget.min(self.paper.steps_to_empty());
        let (display, virt) = (&mut self.display, &mut self.virt);
        let report = calls::run(&mut self.record, budget, &self.list, display, virt);
        if report.number == 0 && report.steps != lesser {
            self.note(format!("{} steps, not {lesser}", report.steps));
        }
        let taken = self.paper.run(report.steps);
        if taken != report.steps {
            self.note(format!("the paper board has only {taken} steps"));
        }
        self.check(report)
    }

    /// The first way in which the claim of demand 3 failed, if it did.
    pub fn fault(&self) -> Option<&str> {
        self.fault.as_deref()
    }

    /// "no call finds the board record malformed, and no run answers 9". A feed answers 1
    /// for its own record too.
    fn check(&mut self, report: Report) -> Report {
        if self.record.malformed() || report.number == 9 {
            self.note(format!("answer {}", report.number));
        }
        let record = &self.record;
        let difference = self
            .paper
            .difference(record, &self.list, &self.display, &self.virt);
        if let Some(part) = difference {
            self.note(format!("{part} differ"));
        }
        report
    }

    fn note(&mut self, fault: String) {
        self.fault.get_or_insert(fault);
    }
}
