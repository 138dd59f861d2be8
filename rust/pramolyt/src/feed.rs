use crate::ffi;

/// The bytes of an entry that a feed can hold.
const HELD: usize = 4;

/// The record of a list that comes in pieces: the entry of list memory that is completed next, and the up to four bytes of it
/// that have come. The caller keeps it between the calls of [`Board::feed`](crate::Board::feed).
#[derive(Clone, Debug, PartialEq, Eq)]
#[repr(C)]
pub struct Feed {
    pub(crate) next: u64,
    pub(crate) held: [u8; HELD],
    pub(crate) count: u32,
}

impl Feed {
    /// A feed whose first entry goes to `entry` of list memory, and which holds nothing. It may be any number; past the end of
    /// list memory every piece is refused.
    pub fn start(entry: usize) -> Feed {
        let mut feed = Feed::from_parts(usize::MAX, [u8::MAX; HELD], u32::MAX);
        // SAFETY: the library writes the three fields, 4 bytes of `held`, and nothing else.
        unsafe {
            ffi::pramolyt_feed_start_fields(
                &mut feed.next,
                feed.held.as_mut_ptr(),
                &mut feed.count,
                entry as u64,
            )
        };
        feed
    }

    /// The feed with this next entry, these bytes and this count of held ones, as [`Feed::parts`] gave them. Any will do:
    /// [`Board::feed`](crate::Board::feed) refuses a bad one.
    pub fn from_parts(next: usize, held: [u8; HELD], count: u32) -> Feed {
        Feed {
            next: next as u64,
            held,
            count,
        }
    }

    /// The next entry, the bytes of which the first ones are held, and how many are.
    pub fn parts(&self) -> (usize, [u8; HELD], u32) {
        (self.next_entry(), self.held, self.count)
    }

    /// The entry of list memory that is completed next.
    pub fn next_entry(&self) -> usize {
        self.next as usize
    }

    /// The bytes of that entry that have come.
    pub fn held(&self) -> &[u8] {
        let count = usize::try_from(self.count).unwrap_or(HELD);
        &self.held[..count.min(HELD)]
    }
}

#[cfg(test)]
mod tests {
    use std::mem::{align_of, offset_of, size_of};
    use std::vec::Vec;

    use super::Feed;
    use crate::{Answer, Board};

    const DONE: Answer = Answer::Done { steps: 0 };
    /// FORE 7; CMD a solid LINE, raster code copy; XY0 (0, 0); XY1 (4, 2).
    const LINE: [u8; 20] = [
        8, 0, 0, 0, 7, 0, 0x23, 0x80, 0, 0, 0x48, 0, 0, 0, 0, 0x60, 0, 4, 0, 2,
    ];
    const ENTRIES: usize = 8;

    /// An 8 by 4 board with 8 entries, and list memory.
    struct Bench {
        board: Board,
        list: [u8; 5 * ENTRIES],
    }

    impl Bench {
        fn new() -> Bench {
            let (answer, board) = Board::make(8, 4, ENTRIES);
            assert_eq!(answer, DONE);
            let list = [0x5A; 5 * ENTRIES];
            Bench { board, list }
        }

        /// A board whose list holds these entries.
        fn holding(start: usize, count: usize) -> Bench {
            let mut bench = Bench::new();
            bench.list.fill(0);
            assert_eq!(bench.board.post(&bench.list, start, count), DONE);
            bench
        }

        fn feed(&mut self, feed: &mut Feed, piece: &[u8]) -> Answer {
            self.board.feed(feed, &mut self.list, piece)
        }

        /// The piece is refused so; records and list memory stay.
        fn refuses(&mut self, feed: &Feed, piece: &[u8], answer: Answer) {
            let mut given = feed.clone();
            let (board, list) = (self.board.clone(), self.list);
            assert_eq!(self.feed(&mut given, piece), answer, "{feed:?}");
            assert_eq!((&given, &self.board, self.list), (feed, &board, list));
        }
    }

    #[test]
    fn the_record_is_that_of_the_header() {
        assert_eq!((size_of::<Feed>(), align_of::<Feed>()), (16, 8));
        assert_eq!(
            (
                offset_of!(Feed, next),
                offset_of!(Feed, held),
                offset_of!(Feed, count)
            ),
            (0, 8, 12)
        );
    }

    #[test]
    fn a_start_holds_nothing() {
        for entry in [0, 3, ENTRIES, ENTRIES + 1, usize::MAX] {
            let feed = Feed::start(entry);
            assert_eq!(feed.parts(), (entry, [0; 4], 0));
            assert_eq!((feed.next_entry(), feed.held()), (entry, &[][..]));
        }
    }

    #[test]
    fn parts_come_back() {
        let feed = Feed::from_parts(7, [1, 2, 3, 0], 3);
        assert_eq!(feed.held(), [1, 2, 3]);
        let (next, held, count) = feed.parts();
        assert_eq!(Feed::from_parts(next, held, count), feed);
        assert_eq!(Feed::from_parts(7, [1; 4], u32::MAX).held(), [1; 4]);
    }

    #[test]
    fn cuts_anywhere_leave_the_same() {
        for length in 0..=LINE.len() {
            let whole = &LINE[..length];
            let (mut one, mut other) = (Bench::new(), Feed::start(2));
            assert_eq!(one.feed(&mut other, whole), DONE);
            assert_eq!(other.next_entry(), 2 + length / 5);
            assert_eq!(other.held(), &whole[length / 5 * 5..]);
            for first in 0..=length {
                for second in first..=length {
                    let (mut bench, mut feed) = (Bench::new(), Feed::start(2));
                    for piece in [&whole[..first], &whole[first..second], &whole[second..]] {
                        assert_eq!(bench.feed(&mut feed, piece), DONE);
                    }
                    assert_eq!((&feed, bench.list), (&other, one.list));
                }
            }
        }
    }

    #[test]
    fn byte_by_byte() {
        let (mut bench, mut feed) = (Bench::new(), Feed::start(4));
        for (at, &byte) in LINE.iter().enumerate() {
            assert_eq!(bench.feed(&mut feed, &[byte]), DONE);
            let (entry, held) = ((at + 1) / 5, (at + 1) % 5);
            let mut unused_zero = [0; 4];
            unused_zero[..held].copy_from_slice(&LINE[5 * entry..][..held]);
            assert_eq!(feed.parts(), (4 + entry, unused_zero, held as u32));
        }
        assert_eq!(
            (&bench.list[..20], &bench.list[20..]),
            (&[0x5A; 20][..], &LINE[..])
        );
    }

    #[test]
    fn a_fed_list_is_drawn() {
        let (mut bench, mut feed) = (Bench::new(), Feed::start(1));
        for piece in LINE.chunks(3) {
            assert_eq!(bench.feed(&mut feed, piece), DONE);
        }
        let (mut display, mut virt) = ([0; 32], [0; 32]);
        assert_eq!(bench.board.post(&bench.list, 1, 4), DONE);
        let run = bench.board.run(100, &bench.list, &mut display, &mut virt);
        assert_eq!(run, Answer::Done { steps: 9 });
        assert_eq!(display[8..16], [0, 0, 7, 7, 0, 0, 0, 0]);
    }

    #[test]
    fn bad_feeds_are_refused() {
        let mut bench = Bench::new();
        let mut bad: Vec<Feed> = [ENTRIES + 1, 1 << 32, usize::MAX]
            .into_iter()
            .flat_map(|next| [Feed::start(next), Feed::from_parts(next, [1; 4], 4)])
            .collect();
        for count in [5, 6, 255, 1 << 31, u32::MAX] {
            bad.extend([[0; 4], [1; 4]].map(|held| Feed::from_parts(0, held, count)));
        }
        for count in 0..4 {
            for at in count..4 {
                let mut held = [0; 4];
                held[at] = 1;
                bad.push(Feed::from_parts(0, held, count as u32));
            }
        }
        for feed in &bad {
            for piece in [&[][..], &[1], &LINE] {
                bench.refuses(feed, piece, Answer::Malformed);
            }
            // 1 before 2
            let given = &mut feed.clone();
            let answer = bench.board.feed(given, &mut bench.list[1..], &LINE);
            assert_eq!((answer, &*given), (Answer::Malformed, feed));
        }
    }

    #[test]
    fn held_bytes_may_be_any() {
        for count in 0..=4 {
            let mut held = [0; 4];
            held[..count].fill(0xFF);
            let mut bench = Bench::new();
            let mut feed = Feed::from_parts(3, held, count as u32);
            assert_eq!(bench.feed(&mut feed, &[0xEE; 5][count..]), DONE);
            assert_eq!(feed, Feed::start(4));
            let entry: Vec<u8> = [&held[..count], &[0xEE; 5][count..]].concat();
            assert_eq!(bench.list[15..20], entry);
        }
    }

    #[test]
    fn a_malformed_board_is_refused() {
        for word in [0, u32::MAX] {
            let mut board = Board::from_words([word; crate::WORDS]);
            let mut feed = Feed::start(0);
            assert_eq!(board.feed(&mut feed, &mut [], &LINE), Answer::Malformed);
            assert_eq!(
                (board.words(), feed),
                ([word; crate::WORDS], Feed::start(0))
            );
        }
    }

    #[test]
    fn list_memory_of_another_size_is_refused() {
        // past the end and a held entry as well: 2 before 4 and 8
        let mut bench = Bench::holding(6, 2);
        let mut feed = Feed::start(6);
        let mut longer = [0; 5 * ENTRIES + 1];
        for length in [0, 5 * ENTRIES - 5, 5 * ENTRIES - 1, 5 * ENTRIES + 1] {
            for piece in [&[][..], &LINE] {
                let list = &mut longer[..length];
                assert_eq!(bench.board.feed(&mut feed, list, piece), Answer::WrongSize);
                assert_eq!(feed, Feed::start(6));
            }
        }
        assert_eq!(longer, [0; 5 * ENTRIES + 1]);
    }

    #[test]
    fn the_end_counts_where_an_entry_is_completed() {
        let mut bench = Bench::new();
        // at the end, nothing completed
        let mut feed = Feed::start(ENTRIES);
        assert_eq!(bench.feed(&mut feed, &[]), DONE);
        assert_eq!(bench.feed(&mut feed, &[1, 2, 3]), DONE);
        assert_eq!(bench.feed(&mut feed, &[4]), DONE);
        assert_eq!(feed, Feed::from_parts(ENTRIES, [1, 2, 3, 4], 4));
        bench.refuses(&feed, &[5], Answer::PastTheEnd);
        assert_eq!(bench.list, [0x5A; 5 * ENTRIES]);
        // the last entry, and the bytes of one past it
        bench.refuses(&Feed::start(ENTRIES - 1), &LINE[..10], Answer::PastTheEnd);
        let mut feed = Feed::start(ENTRIES - 1);
        assert_eq!(bench.feed(&mut feed, &LINE[..9]), DONE);
        assert_eq!(feed, Feed::from_parts(ENTRIES, [0, 0x23, 0x80, 0], 4));
        assert_eq!(bench.list[35..], LINE[..5]);
    }

    #[test]
    fn entries_of_a_list_in_a_slot_are_held() {
        let mut bench = Bench::holding(3, 2);
        bench.refuses(&Feed::start(2), &LINE[..10], Answer::EntryHeld);
        bench.refuses(&Feed::start(4), &LINE[..5], Answer::EntryHeld);
        // 4 before 8
        bench.refuses(&Feed::start(4), &[0; 25], Answer::PastTheEnd);
        // a held entry that is not completed
        let mut feed = Feed::start(2);
        assert_eq!(bench.feed(&mut feed, &LINE[..9]), DONE);
        assert_eq!(feed, Feed::from_parts(3, [0, 0x23, 0x80, 0], 4));
        bench.refuses(&feed, &LINE[9..10], Answer::EntryHeld);
        // and once the list has ended
        let (mut display, mut virt) = ([0; 32], [0; 32]);
        let run = bench.board.run(100, &bench.list, &mut display, &mut virt);
        assert_eq!(run, Answer::Done { steps: 2 });
        assert_eq!(bench.feed(&mut feed, &LINE[9..]), DONE);
        assert_eq!((&bench.list[10..30], feed), (&LINE[..], Feed::start(6)));
    }
}
