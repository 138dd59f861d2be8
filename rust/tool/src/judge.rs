//! The library's verdict on entries.

use pramolyt::list::{ENTRY_BYTES, MAX_ENTRIES};
use pramolyt::{FileAnswer, pack, packed_size};

/// The places of the illegal entries among these, of which there are [`MAX_ENTRIES`] at most. The library's converter judges
/// entries as a post does, each by itself; it names the first illegal one, and is asked again for those after it.
pub fn illegal_places(entries: &[u8]) -> Vec<usize> {
    let mut output = [0; packed_size(MAX_ENTRIES)];
    let mut illegal = Vec::new();
    let mut start = 0;
    while ENTRY_BYTES * start < entries.len() {
        match pack(&entries[ENTRY_BYTES * start..], &mut output) {
            FileAnswer::Done { .. } => break,
            FileAnswer::IllegalEntry { place } => {
                illegal.push(start + place as usize);
                start += place as usize + 1;
            }
            refused => unreachable!("{refused:?} for whole entries, {MAX_ENTRIES} at most"),
        }
    }
    illegal
}

#[cfg(test)]
mod tests {
    use super::illegal_places;
    use compare::lists::{Size, doubtful_entry, legal_entry};
    use compare::random::Random;
    use pramolyt::list::ENTRY_BYTES;
    use pramolyt::{Answer, Board};

    /// The places that a post finds, one after the other.
    fn posted(list: &[u8]) -> Vec<usize> {
        let count = list.len() / ENTRY_BYTES;
        let mut places = Vec::new();
        let mut start = 0;
        while start < count {
            let (made, mut board) = Board::make(1, 1, count);
            made.ok().expect("a board");
            match board.post(list, start, count - start) {
                Answer::IllegalEntry { place } => {
                    places.push(place as usize);
                    start = place as usize + 1;
                }
                answer => {
                    answer.ok().expect("a legal rest");
                    break;
                }
            }
        }
        places
    }

    #[test]
    fn a_post_finds_the_same() {
        let mut random = Random::new(3);
        let size = Size {
            width: 9,
            height: 9,
        };
        let mut found = 0;
        for _ in 0..2_000 {
            let mut list = Vec::new();
            for _ in 0..=random.below(40) {
                list.extend(match random.below(3) {
                    0 => doubtful_entry(&mut random, size),
                    _ => legal_entry(&mut random, size),
                });
            }
            let places = illegal_places(&list);
            assert_eq!(places, posted(&list), "{list:02X?}");
            found += places.len();
        }
        assert!(found > 2_000);
        assert_eq!(illegal_places(&[]), []);
    }
}
