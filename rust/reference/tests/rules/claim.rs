//! The claim of demand 3 over random sequences of calls, and that no call panics.

use crate::common::*;
use reference::pictures::picture;
use reference::{
    export, feed, import, make, post, run, store, window_write, Feed, Record, Sequence, WORDS,
};

/// A board that no tile fits, and one that has room for it.
const SIZES: [(u64, u64); 2] = [(8, 4), (20, 10)];

/// A small generator of numbers (xorshift).
struct Random(u64);

impl Random {
    fn below(&mut self, limit: u64) -> u64 {
        self.0 ^= self.0 << 13;
        self.0 ^= self.0 >> 7;
        self.0 ^= self.0 << 17;
        (self.0 >> 11) % limit
    }

    fn pick<T: Copy>(&mut self, from: &[T]) -> T {
        from[self.below(from.len() as u64) as usize]
    }

    fn word(&mut self) -> u32 {
        self.below(1 << 32) as u32
    }

    /// A number of any size, most of them small or near a limit.
    fn wide(&mut self) -> u64 {
        let small = self.below(20);
        self.pick(&[small, 32, 80, 4_096, 1 << 32, 1 << 62, u64::MAX])
    }

    /// An entry, most often legal, with coordinates on or near the board.
    fn entry(&mut self) -> [u8; 5] {
        let near = xy(self.below(14) as i32 - 3, self.below(10) as i32 - 3);
        let commands = [
            0x1000_0000,
            0x1000_4000,
            0x1020_0000,
            0x2020_0000,
            0x2080_0000,
            0x5020_0000,
        ];
        let flags = [0, TRNSP, KEYED, NLST, PRST, CLIP, FROM_VIRTUAL, TO_VIRTUAL];
        let raster = self.word() & 0x0F00_0000;
        let command = self.pick(&commands) | self.pick(&flags) | self.pick(&flags) | raster;
        let byte = self.below(256) as u32;
        let size = xy(self.below(6) as i32, self.below(6) as i32);
        let control = self.pick(&[0, 0x2123, 0x0203, 0x1F00, 0xE5, 0x44]);
        let noise = self.word();
        let byte_register = self.pick(&[FORE, BACK, MASK, KEY]);
        let near_register = self.pick(&[XY0, XY1, XY1, XY1, CLPTL, CLPBR]);
        let (register, data) = self.pick(&[
            (CMD, command),
            (CMD, command),
            (CMD, 0),
            (byte_register, byte),
            (MASK, 255),
            (LPAT, noise),
            (PCTRL, control),
            (near_register, near),
            (near_register, near),
            (XY2, size),
            (XY3, byte & 3),
        ]);
        entry(register, data)
    }
}

/// One random call; whether it was done. The feed record is kept, or any is given.
fn call(random: &mut Random, board: &mut Sequence, line: &mut Feed) -> bool {
    let report = match random.below(12) {
        0 | 1 => {
            let count = random.below(4) as usize;
            let bytes: Vec<u8> = (0..count).flat_map(|_| random.entry()).collect();
            board.store(random.below(17), &bytes)
        }
        2 => {
            let bytes: Vec<u8> = (0..random.below(9)).map(|byte| byte as u8).collect();
            board.window_write(random.below(3), random.below(36), &bytes)
        }
        3 | 4 => board.post(random.below(15), random.below(5)),
        5 | 6 => {
            if random.below(6) == 0 {
                *line = any_feed(random);
            }
            let entry = random.entry();
            let from = (line.count as usize).min(4);
            let bytes = [&entry[from..], &random.entry()].concat();
            board.feed(
                line,
                &bytes[..random.below(bytes.len() as u64 + 1) as usize],
            )
        }
        7 => {
            let mut output = vec![0; board.display.len() + random.below(28) as usize];
            board.export(random.below(3), &mut output)
        }
        8 => {
            let Record { width, height, .. } = board.record;
            let area = width * height;
            let pixels: Vec<u8> = (0..area).map(|_| random.word() as u8).collect();
            let picture = picture(random.pick(&[width, width, width, 4]), height, &pixels);
            board.import(random.below(3), &picture)
        }
        _ => {
            let budget = random.below(40);
            board.run(budget)
        }
    };
    report.number == 0
}

#[test]
fn random_sequences_agree_with_the_paper_board() {
    let mut random = Random(0x1234_5678_9ABC_DEF1);
    let (mut done, mut calls) = (0, 0);
    for number in 0..400 {
        let (width, height) = SIZES[number % 2];
        let mut board = board(width, height, 16);
        let mut line = Feed::start(random.below(17));
        for _ in 0..200 {
            calls += 1;
            done += u32::from(call(&mut random, &mut board, &mut line));
            assert_eq!(board.fault(), None);
        }
    }
    assert!(done > calls / 2, "{done} of {calls} calls were done");
}

/// A budget cut into pieces gives the picture and the record of the whole.
#[test]
fn runs_in_pieces() {
    let mut random = Random(0x0F1E_2D3C_4B5A_6978);
    for number in 0..300 {
        let (width, height) = SIZES[number % 2];
        let list: Vec<u8> = (0..16).flat_map(|_| random.entry()).collect();
        let mut boards = [board(width, height, 16), board(width, height, 16)];
        for board in &mut boards {
            board.store(0, &list);
            board.post(0, 16);
        }
        let [whole, pieces] = &mut boards;
        let mut left = whole.run(150).steps;
        while left > 0 {
            left -= pieces.run(left.min(1 + random.below(20))).steps;
        }
        assert_eq!(whole.record, pieces.record);
        assert_eq!(
            (&whole.display, &whole.virt),
            (&pieces.display, &pieces.virt)
        );
    }
}

/// Records, arguments and memories of any value: every call answers.
#[test]
fn no_call_panics() {
    let mut random = Random(0xFEDC_BA98_7654_3211);
    for _ in 0..20_000 {
        let mut record = any_record(&mut random);
        let sizes = [0, 5, 32, 80, 81];
        let mut list: Vec<u8> = (0..16).flat_map(|_| random.entry()).collect();
        list.resize(random.pick(&sizes), 0xFF);
        let mut display = vec![1; random.pick(&sizes)];
        let mut virt = vec![1; display.len()];
        let bytes = vec![0; random.below(12) as usize];
        let (first, second) = (random.wide(), random.wide());
        make(first, second, random.wide());
        post(&mut record, &list, first, second);
        store(&mut record, &mut list, first, &bytes);
        feed(&mut record, &mut any_feed(&mut random), &mut list, &bytes);
        window_write(&mut record, random.below(3), first, &bytes, &mut display);
        export(&mut record, random.below(3), &display, &mut list);
        import(&mut record, random.below(3), &list, &mut display);
        run(
            &mut record,
            first.min(9_999),
            &list,
            &mut display,
            &mut virt,
        );
    }
}

/// A feed record, good or bad.
fn any_feed(random: &mut Random) -> Feed {
    let mut feed = Feed::start(random.wide());
    feed.count = random.pick(&[0, 1, 2, 3, 4, 5, u32::MAX]);
    let used = random.below(5) as usize;
    feed.held[..used].fill(1);
    feed
}

/// A board at work with a few of its words changed to any value.
fn any_record(random: &mut Random) -> Record {
    let (mut record, list) = busy();
    post(&mut record, &list, 1, 2);
    let mut display = [0; 32];
    run(
        &mut record,
        random.below(20),
        &list,
        &mut display,
        &mut [0; 32],
    );
    let mut words = record.words();
    for _ in 0..random.below(4) {
        let at = random.below(WORDS as u64) as usize;
        let (small, any) = (random.below(9), random.word());
        words[at] = random.pick(&[small as u32, any, u32::MAX, 0x2380_0000]);
    }
    Record::from_words(&words)
}
