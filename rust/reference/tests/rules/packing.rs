//! "Second edition of the list file" (document 02, R-4).

use crate::common::*;
use reference::{pack, unpack, Conversion};

/// The example's list in edition 2: registers 1, 0, 9 and then 12 alone.
const EXAMPLE: [u8; 28] = [
    0x04, 0x09, 0, 0, 0, 7, 0x23, 0x80, 0, 0, 0, 0, 0, 0, //
    0x33, 0xFF, 0, 4, 0, 2, 0, 0, 0, 0, 0, 0, 0, 0,
];

/// One of the two conversions.
type Call = fn(&[u8], &mut [u8]) -> Conversion;

/// What a conversion answers, and its output.
fn call(convert: Call, input: &[u8], room: usize) -> (Conversion, Vec<u8>) {
    let mut output = vec![0xA5; room];
    (convert(input, &mut output), output)
}

/// A refusal with this number and place, which leaves its output alone.
fn refused(convert: Call, input: &[u8], room: usize, number: u32, place: u64) {
    let conversion = Conversion {
        number,
        place,
        written: 0,
    };
    assert_eq!(call(convert, input, room), (conversion, vec![0xA5; room]));
}

/// A conversion to these bytes, which leaves those past them alone.
fn done(convert: Call, input: &[u8], bytes: &[u8]) {
    for past in [0, 1, 20] {
        let (conversion, output) = call(convert, input, bytes.len() + past);
        assert_eq!(conversion.number, 0);
        assert_eq!(conversion.place, 0);
        assert_eq!(conversion.written, bytes.len() as u64);
        assert_eq!(output[..bytes.len()], *bytes);
        assert!(output[bytes.len()..].iter().all(|&byte| byte == 0xA5));
    }
}

/// The bytes of a group.
fn group(zero_bit: u16, registers: [u16; 3], data: [u32; 3]) -> Vec<u8> {
    let [a, b, c] = registers;
    let head = zero_bit << 15 | a << 10 | b << 5 | c;
    let data = data.iter().flat_map(|data| data.to_be_bytes());
    head.to_be_bytes().into_iter().chain(data).collect()
}

/// An edition 2 file of so many groups, in the last of which so many entries are missing;
/// the others write LPAT.
fn file(groups: usize, missing: usize) -> Vec<u8> {
    let mut file = group(0, [5; 3], [9; 3]).repeat(groups - 1);
    let last = [
        group(0, [5, 5, 5], [9, 9, 9]),
        group(0, [5, 5, 31], [9, 9, 0]),
        group(0, [5, 31, 31], [9, 0, 0]),
    ];
    file.extend(&last[missing]);
    file
}

#[test]
fn the_example_there_and_back() {
    done(pack, &example(), &EXAMPLE);
    done(unpack, &EXAMPLE, &example());
}

#[test]
fn lists_of_every_length_come_back() {
    for count in [1, 2, 3, 4, 5, 6, 7, 4_094, 4_095, 4_096] {
        let list = entries(&vec![(LPAT, 0x0102_0304); count]);
        let packed = call(pack, &list, 14 * count.div_ceil(3)).1;
        done(pack, &list, &packed);
        done(unpack, &packed, &list);
    }
}

#[test]
fn sizes_of_input_and_output() {
    for cut in 1..5 {
        refused(pack, &example()[cut..], 28, 2, 0);
    }
    for cut in 1..14 {
        refused(unpack, &EXAMPLE[cut..], 20, 2, 0);
    }
    refused(pack, &example(), 27, 2, 0);
    refused(unpack, &EXAMPLE, 19, 2, 0);
    // room for the entries that there are, not for every position
    done(unpack, &file(2, 2), &entries(&[(LPAT, 9); 4]));
    refused(pack, &[], 0, 3, 0);
    refused(unpack, &[], 0, 3, 0);
}

#[test]
fn at_most_4_096_entries() {
    let list = entries(&[(LPAT, 9); 4_097]);
    refused(pack, &list, 14 * 1_366, 4, 0);
    refused(pack, &list, 14 * 1_366 - 1, 2, 0);
    done(pack, &list[5..], &file(1_366, 2));
    done(unpack, &file(1_366, 2), &list[5..]);
    refused(unpack, &file(1_366, 1), 5 * 4_097, 4, 0);
    refused(unpack, &file(1_366, 1), 5 * 4_097 - 1, 2, 0);
    refused(unpack, &file(1_366, 0), 5 * 4_098, 4, 0);
}

#[test]
fn illegal_entries_and_their_places() {
    let list = entries(&[(FORE, 7), (FORE, 256), (31, 0)]);
    refused(pack, &list, 14, 6, 1);
    refused(pack, &list[10..], 14, 6, 0);
    let mut spare = example();
    spare[5] |= 1;
    refused(pack, &spare, 28, 6, 1);
    // a place counts the 31s before it
    let file = [
        group(0, [1, 31, 5], [7, 0, 9]),
        group(0, [13, 31, 31], [0; 3]),
    ]
    .concat();
    refused(unpack, &file, 20, 6, 3);
    // 6 anywhere before 10 anywhere
    let file = [
        group(1, [1, 31, 5], [7, 1, 9]),
        group(0, [1, 31, 31], [256, 0, 1]),
    ]
    .concat();
    refused(unpack, &file, 20, 6, 3);
}

#[test]
fn malformed_files() {
    for (bad, room) in [
        (group(1, [5, 31, 31], [9, 0, 0]), 5),
        (group(0, [5, 31, 31], [9, 1, 0]), 5),
        (group(0, [5, 31, 31], [9, 0, 1]), 5),
        (group(0, [5, 31, 5], [9, 0, 9]), 15),
        (group(0, [31, 5, 5], [0, 9, 9]), 15),
        (group(0, [31; 3], [0; 3]), 0),
    ] {
        refused(unpack, &bad, room, 10, 0);
    }
    // whatever their data, the 31s that end the last group are no entries
    refused(unpack, &group(0, [5, 31, 31], [9, 1, 1]), 4, 2, 0);
    let early = [group(0, [5, 5, 31], [9, 9, 0]), file(1, 0)].concat();
    refused(unpack, &early, 30, 10, 0);
    let alone = [file(1, 0), group(0, [31; 3], [0; 3])].concat();
    refused(unpack, &alone, 15, 10, 0);
}
