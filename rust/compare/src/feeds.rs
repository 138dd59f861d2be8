//! A serial line: feed records that are kept, started anew, made up or damaged, and pieces of lists cut anywhere.

use crate::call::Call;
use crate::choose::extreme;
use crate::lists::{ENTRY, Size, list};
use crate::random::Random;
use reference::{Feed, Record};

/// The longest piece.
const LONGEST: u64 = 600;

/// A line: its feed record, an older one, and the bytes to come, which go on from the bytes that its record holds.
pub struct Line {
    feed: Feed,
    older: Feed,
    coming: Vec<u8>,
}

impl Line {
    /// A line with this feed record.
    pub fn new(feed: Feed) -> Line {
        Line {
            feed,
            older: feed,
            coming: Vec::new(),
        }
    }

    /// A piece, most often the line's next.
    pub fn feed(&mut self, random: &mut Random, record: &Record) -> Call {
        let entries = u64::from(record.entries);
        let (feed, is_next) = match random.weighted(&[40, 12, 2, 4, 2]) {
            0 => (self.feed, true),
            1 => (good(random, entries), false),
            2 => (self.older, false),
            3 => (damaged(random, self.feed, entries), false),
            _ => {
                let feed = good(random, entries);
                (damaged(random, feed, entries), false)
            }
        };
        let length = length(random, &feed, entries) as usize;
        let size = Size::of(record);
        if !is_next {
            let piece = from(random, size, feed.count as usize, length);
            return Call::Feed { feed, piece };
        }
        if self.coming.len() < length {
            let before = feed.count as usize + self.coming.len();
            let more = length - self.coming.len() + ENTRY;
            self.coming.extend(from(random, size, before, more));
        }
        let piece = self.coming[..length].to_vec();
        Call::Feed { feed, piece }
    }

    /// A piece was accepted with the record `given`, and `left` came back.
    pub fn taken(&mut self, given: &Feed, piece: &[u8], left: Feed) {
        if *given == self.feed && self.coming.starts_with(piece) {
            self.coming.drain(..piece.len());
        } else {
            self.coming.clear();
        }
        self.older = *given;
        self.feed = left;
    }
}

/// A start: anywhere in list memory, at a slot's list, at the end or past it.
pub fn start(random: &mut Random, record: &Record) -> Call {
    let entries = u64::from(record.entries);
    let entry = match random.weighted(&[30, 6, 3, 3, 2]) {
        0 => random.below(entries),
        1 => (u64::from(record.active_start) + random.below(3)).saturating_sub(1),
        2 => entries,
        3 => entries.saturating_sub(1 + random.below(3)),
        _ => extreme(random, entries),
    };
    Call::FeedStart { entry }
}

/// Bytes of a piece: none, a few, up to the end of its entry or of list memory, or many.
fn length(random: &mut Random, feed: &Feed, entries: u64) -> u64 {
    let held = u64::from(feed.count).min(4);
    let room = ENTRY as u64 * entries.saturating_sub(feed.next);
    let to_the_end = room.saturating_sub(held).min(LONGEST - 8);
    match random.weighted(&[2, 8, 4, 10, 6, 3, 1]) {
        0 => 0,
        1 => 1 + random.below(4),
        2 => ENTRY as u64 - held,
        3 => random.below(24),
        4 => random.below(80),
        5 => (to_the_end + random.below(7)).saturating_sub(1),
        _ => random.below(LONGEST),
    }
}

/// So many bytes of a list, which go on where `before` bytes of it have come.
fn from(random: &mut Random, size: Size, before: usize, length: usize) -> Vec<u8> {
    let come = before % ENTRY;
    let mut bytes = list(random, size, (come + length).div_ceil(ENTRY));
    bytes.drain(..come.min(bytes.len()));
    bytes.truncate(length);
    bytes
}

/// A good feed record: any entry up to the end of list memory, and any held bytes.
fn good(random: &mut Random, entries: u64) -> Feed {
    let next = match random.weighted(&[8, 1, 1]) {
        0 => random.below(entries),
        1 => entries,
        _ => entries.saturating_sub(1),
    };
    let mut feed = Feed::start(next);
    let count = random.below(5) as usize;
    feed.held[..count].copy_from_slice(&random.bytes(count));
    feed.count = count as u32;
    feed
}

/// The feed record with its next entry past the end or huge, more than four held bytes, or an unused byte set.
fn damaged(random: &mut Random, mut feed: Feed, entries: u64) -> Feed {
    match random.below(4) {
        0 => feed.next = entries + 1 + random.below(3),
        1 => feed.next = extreme(random, entries),
        2 => {
            let low = random.below(5) as u32;
            feed.count = random.pick(&[5, 5, 6, 7, 8, 255, 256 + low, 1 << 31 | low, u32::MAX]);
            if random.one_in(2) {
                feed.held = [0; 4];
            }
        }
        _ => {
            feed.count = feed.count.min(random.below(4) as u32);
            let unused = feed.count as usize..;
            feed.held[unused.clone()].fill(0);
            let bytes = &mut feed.held[unused];
            let at = random.below(bytes.len() as u64) as usize;
            bytes[at] = 1 << random.below(8);
        }
    }
    feed
}

#[cfg(test)]
mod tests {
    use super::{Line, damaged, good};
    use crate::call::Call;
    use crate::random::Random;
    use reference::{Feed, Record};

    #[test]
    fn good_records_are_good_and_damaged_ones_mostly_not() {
        let mut random = Random::new(1);
        let is_good = |feed: Feed| feed.faults(9).is_empty();
        assert!((0..1_000).all(|_| is_good(good(&mut random, 9))));
        let mut spoiled = |_| {
            let feed = good(&mut random, 9);
            damaged(&mut random, feed, 9)
        };
        let still_good = (0..1_000).map(&mut spoiled).filter(|&feed| is_good(feed));
        assert!((10..200).contains(&still_good.count()));
    }

    /// The pieces of a line that are taken are legal entries when joined, but for a few.
    #[test]
    fn pieces_go_on_from_one_another() {
        let mut random = Random::new(1);
        let (mut record, mut list) = (Record::fresh(8, 4, 4_096), vec![0; 5 * 4_096]);
        let mut line = Line::new(Feed::start(0));
        let mut fed = 0;
        for _ in 0..400 {
            let Call::Feed { mut feed, piece } = line.feed(&mut random, &record) else {
                panic!("another call");
            };
            if feed != line.feed || piece.len() > 100 {
                continue;
            }
            let given = feed;
            assert_eq!(
                reference::feed(&mut record, &mut feed, &mut list, &piece).number,
                0
            );
            line.taken(&given, &piece, feed);
            fed = feed.next as usize;
        }
        let legal = (0..fed).filter(|&place| reference::entries::entry_at(&list, place).is_some());
        assert!(fed > 500 && legal.count() > fed - fed / 20, "{fed}");
    }
}
