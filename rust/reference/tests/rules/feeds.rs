//! "Lists over the serial line" (document 02, R-5), sentence by sentence.

use crate::common::*;
use reference::{feed, make, post, Feed, Record, Report};

/// Board record, feed record and list memory.
#[derive(Clone, PartialEq, Debug)]
struct Line {
    record: Record,
    feed: Feed,
    list: Vec<u8>,
}

impl Line {
    /// A board of 16 entries, idle.
    fn idle(entry: u64) -> Line {
        Line {
            record: make(8, 4, 16).1,
            feed: Feed::start(entry),
            list: vec![0xA5; 80],
        }
    }

    /// A board of 16 entries that holds entries 2 to 4 and 8 to 9.
    fn busy(entry: u64) -> Line {
        let mut line = Line::idle(entry);
        line.list = vec![0; 80];
        assert_eq!(post(&mut line.record, &line.list, 2, 3), plain(0));
        assert_eq!(post(&mut line.record, &line.list, 8, 2), plain(0));
        line
    }

    /// The line with this feed record.
    fn with(self, feed: Feed) -> Line {
        Line { feed, ..self }
    }

    fn feed(&mut self, piece: &[u8]) -> Report {
        feed(&mut self.record, &mut self.feed, &mut self.list, piece)
    }

    /// Whether each of the pieces is accepted.
    fn feed_all(&mut self, pieces: &[&[u8]]) -> bool {
        pieces.iter().all(|piece| self.feed(piece) == plain(0))
    }

    /// The piece is refused so, and all stays.
    fn refuses(&self, piece: &[u8], number: u32) {
        let mut line = self.clone();
        assert_eq!(line.feed(piece), plain(number), "{:?}", self.feed);
        assert_eq!(line, *self);
    }
}

/// A feed record with these bytes held.
fn holding(next: u64, bytes: &[u8]) -> Feed {
    let mut feed = Feed::start(next);
    feed.held[..bytes.len()].copy_from_slice(bytes);
    feed.count = bytes.len() as u32;
    feed
}

/// Bytes 1, 2, 3 and so on.
fn bytes(count: usize) -> Vec<u8> {
    (1..=count).map(|byte| byte as u8).collect()
}

/// "A feed record starts at a named list entry, any number, and holds up to four bytes of
/// an unfinished one, the unused ones zero."
#[test]
fn a_feed_record_starts_at_a_named_entry_and_holds_up_to_four_bytes() {
    for entry in [0, 5, 16, 17, u64::MAX] {
        let feed = Feed::start(entry);
        assert_eq!((feed.next, feed.held, feed.count), (entry, [0; 4], 0));
    }
    for count in 0..=24 {
        let mut line = Line::idle(3);
        assert_eq!(line.feed(&bytes(count)), plain(0));
        let rest = &bytes(count)[count / 5 * 5..];
        assert_eq!(line.feed, holding(3 + count as u64 / 5, rest));
    }
}

/// "Each completed entry goes into list memory."
#[test]
fn each_completed_entry_goes_into_list_memory() {
    for held in 0..=4 {
        for count in 0..=22 {
            let all = bytes(held + count);
            let mut line = Line::idle(0).with(holding(6, &all[..held]));
            let before = line.record;
            assert_eq!(line.feed(&all[held..]), plain(0));
            let whole = all.len() / 5 * 5;
            let mut expected = vec![0xA5; 80];
            expected[30..][..whole].copy_from_slice(&all[..whole]);
            assert_eq!((line.record, line.list), (before, expected));
            assert_eq!(line.feed, holding(6 + whole as u64 / 5, &all[whole..]));
        }
    }
}

/// "With no other call between pieces, feeding any cuts, at least one piece, of a byte
/// string is accepted throughout exactly when the joined string is, and then leaves the
/// same memory and feed record."
#[test]
fn any_cuts_are_accepted_exactly_when_the_joined_string_is() {
    let feeds: Vec<Feed> = (0..=16)
        .flat_map(|next| {
            [
                holding(next, &[]),
                holding(next, &[9]),
                holding(next, &[9; 4]),
            ]
        })
        .collect();
    let bad = [
        Feed::start(17),
        Feed {
            count: 5,
            ..Feed::start(0)
        },
    ];
    for feed in feeds.iter().chain(&bad) {
        for line in [Line::idle(0), Line::busy(0)] {
            for length in [0, 1, 4, 5, 9, 10, 14, 30] {
                let all = bytes(length);
                let mut joined = line.clone().with(*feed);
                let accepted = joined.feed_all(&[&all]);
                for first in 0..=length {
                    for second in first..=length {
                        let mut pieces = line.clone().with(*feed);
                        let cuts = [&all[..first], &all[first..second], &all[second..]];
                        assert_eq!(pieces.feed_all(&cuts), accepted);
                        assert!(!accepted || pieces == joined);
                    }
                }
            }
        }
    }
}

/// "In demand 3 an accepted piece counts as a store of the entries it completes, whatever
/// feed record it is given."
#[test]
fn an_accepted_piece_counts_as_a_store() {
    let mut fed = board(8, 4, 16);
    let mut stored = board(8, 4, 16);
    // the list of the example, its first entry from two feed records
    let list = example();
    let mut first = holding(4, &list[..4]);
    assert_eq!(fed.feed(&mut first, &list[4..5]), plain(0));
    let mut second = holding(5, &list[5..8]);
    assert_eq!(fed.feed(&mut second, &list[8..]), plain(0));
    assert_eq!(stored.store(4, &list), plain(0));
    assert_eq!(fed.list, stored.list);
    for board in [&mut fed, &mut stored] {
        assert_eq!(board.post(4, 4), plain(0));
        assert_eq!(board.run(5), steps(5));
    }
    // refused pieces, those of a bad feed record too, count as nothing
    let mut bad = Feed::start(17);
    assert_eq!(fed.feed(&mut bad, &list), plain(1));
    assert_eq!(fed.feed(&mut Feed::start(4), &list), plain(8));
    for board in [&mut fed, &mut stored] {
        assert_eq!(board.run(100), steps(4));
        assert_eq!(board.fault(), None);
    }
    assert_eq!(fed.display, stored.display);
    assert_eq!(fed.paper.display(), fed.display);
}

/// "1 for a malformed board record"
#[test]
fn a_malformed_board_record_is_1() {
    for (word, value) in [(0, 0), (2, 4_097), (9, 1), (3, 2)] {
        let mut line = Line::idle(0);
        let mut words = line.record.words();
        words[word] = value;
        line.record = Record::from_words(&words);
        for piece in [0, 3, 5] {
            line.refuses(&bytes(piece), 1);
        }
    }
}

/// "a bad feed record (next entry past the memory's end, more than four held bytes, an
/// unused one not zero)"
#[test]
fn a_bad_feed_record_is_1() {
    let mut bad = vec![];
    for next in [17, 18, 1 << 32, u64::MAX / 5 + 1, u64::MAX] {
        bad.extend([holding(next, &[]), holding(next, &[1, 2])]);
    }
    for count in [5, 6, 100, u32::MAX] {
        for held in [[0; 4], [1; 4]] {
            let next = 0;
            bad.push(Feed { next, held, count });
        }
    }
    for count in 0..4 {
        for at in count..4 {
            let mut feed = holding(3, &[7; 4][..count]);
            feed.held[at] = 1;
            bad.push(feed);
        }
    }
    for feed in bad {
        for piece in [0, 1, 5, 12] {
            Line::idle(0).with(feed).refuses(&bytes(piece), 1);
            Line::busy(0).with(feed).refuses(&bytes(piece), 1);
        }
    }
    // the memory's end itself, and four held bytes of any value, are good
    let mut line = Line::idle(0).with(holding(16, &[0xFF; 4]));
    assert_eq!(line.feed(&[]), plain(0));
    assert_eq!(line.feed, holding(16, &[0xFF; 4]));
}

/// "Refusals, which hand both records back as given, in order: 1 [..]; 2; 4 and 8"
#[test]
fn refusals_in_order() {
    for (feed, size, piece, number) in [
        // all grounds at once, then one less each time
        (Feed::start(17), 79, 5, 1),
        (holding(8, &[1]), 79, 60, 2),
        (holding(8, &[1]), 85, 60, 2),
        (holding(8, &[1]), 80, 60, 4),
        (holding(8, &[1]), 80, 9, 8),
        // 2 whatever the piece
        (Feed::start(16), 0, 0, 2),
        (Feed::start(0), 75, 0, 2),
    ] {
        let mut line = Line::busy(0).with(feed);
        line.list.resize(size, 0);
        line.refuses(&bytes(piece), number);
    }
}

/// "4 and 8 when an entry that the piece completes would be past the end, or is held by a
/// slot."
#[test]
fn an_entry_that_the_piece_completes() {
    for (feed, piece, number) in [
        (Feed::start(16), 4, 0),
        (Feed::start(16), 5, 4),
        (holding(16, &[1; 4]), 0, 0),
        (holding(16, &[1; 4]), 1, 4),
        (Feed::start(10), 30, 0),
        (Feed::start(10), 34, 0),
        (Feed::start(10), 35, 4),
        (holding(15, &[1]), 8, 0),
        (holding(15, &[1]), 9, 4),
        (Feed::start(1), 9, 0),
        (Feed::start(1), 10, 8),
        (Feed::start(2), 4, 0),
        (holding(4, &[1; 3]), 1, 0),
        (holding(4, &[1; 3]), 2, 8),
        (Feed::start(5), 19, 0),
        (Feed::start(5), 20, 8),
        (Feed::start(0), 80, 8),
        (Feed::start(0), 85, 4),
    ] {
        let line = Line::busy(0).with(feed);
        if number != 0 {
            line.refuses(&bytes(piece), number);
        } else {
            assert_eq!(line.clone().feed(&bytes(piece)), plain(0), "{feed:?}");
        }
    }
}

/// A feed stores as a store does: whether an entry is legal is not its ground.
#[test]
fn illegal_entries_are_fed() {
    let mut line = Line::idle(2);
    assert_eq!(line.feed(&[0xFF; 7]), plain(0));
    assert_eq!(line.list[10..15], [0xFF; 5]);
    assert_eq!(line.feed, holding(3, &[0xFF; 2]));
}
