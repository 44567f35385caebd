//! Cases of the flow records: the numbers 5 and 6.

use crate::build::load_file::LoadFile;
use crate::cases::Cases;

pub fn add(cases: &mut Cases) {
    wrong_length_byte(cases);
    record_past_the_end(cases);
    name_and_end(cases);
    name_and_blocks(cases);
    name_lengths(cases);
    name_bytes(cases);
    short_and_long_names(cases);
}

/// Three flows with names of odd length, so that each has a first, a middle and a last byte.
fn three_names() -> LoadFile {
    LoadFile::new(2).flows(&["first", "mid", "final"])
}

fn with_blocks(file: LoadFile) -> LoadFile {
    file.block(1, 4, &[3, 0]).block(2, 9, &[0, 3])
}

/// 5: a length byte over 31 in the first, middle and last flow record, once over the old name and
/// once with as many name bytes as it says.
fn wrong_length_byte(cases: &mut Cases) {
    let file = with_blocks(three_names());
    for flow in 0..3 {
        for length in [32, 33, 64, 127, 128, 255] {
            cases.both(&file.with(|f| f.flows[flow].length = Some(length)), 12, 5);
        }
        for length in [32, 33, 255] {
            let long = vec![b'n'; length];
            cases.both(&file.with(|f| f.flows[flow].name = long), 12, 5);
        }
    }
}

/// 5: the file ends just before a record's length byte, right after it, within the name, and one
/// byte before the name's end.
fn record_past_the_end(cases: &mut Cases) {
    let file = with_blocks(three_names());
    for flow in 0..3 {
        let start = file.flow_start(flow);
        for keep in [start, start + 1, start + 2, file.flow_start(flow + 1) - 1] {
            cases.both(&file.cut(keep), 12, 5);
        }
    }
}

/// 5: the last name of a file without blocks is longer or shorter than the file has room for, and
/// the flow count is one off.
fn name_and_end(cases: &mut Cases) {
    let file = three_names();
    for length in [6, 7, 31] {
        cases.both(&file.with(|f| f.flows[2].length = Some(length)), 1, 5);
    }
    for length in [0, 4] {
        cases.both(&file.with(|f| f.flows[2].length = Some(length)), 1, 5);
    }
    cases.both(&file.with(|f| f.flow_count = Some(4)), 1, 5);
    cases.both(&file.with(|f| f.flow_count = Some(2)), 1, 5);
    cases.both(&file.with(|f| f.flow_count = Some(0)), 1, 5);
    cases.both(&file.bytes(), 1, 0);
}

/// The same with blocks behind: a name that is too long takes in block bytes, which are no name
/// bytes (6); one that is too short leaves a wrong length byte for the first block (5).
fn name_and_blocks(cases: &mut Cases) {
    let file = with_blocks(three_names());
    cases.both(&file.with(|f| f.flows[2].length = Some(6)), 12, 6);
    cases.both(&file.with(|f| f.flows[2].length = Some(31)), 12, 6);
    cases.both(&file.with(|f| f.flows[2].length = Some(4)), 12, 5);
    cases.both(&file.with(|f| f.flow_count = Some(4)), 12, 6);
    cases.both(&file.with(|f| f.flow_count = Some(2)), 12, 5);
    // The middle name takes in the length byte of the last flow, which is below 33.
    cases.both(&file.with(|f| f.flows[1].length = Some(4)), 12, 6);
    // The first name takes in nothing and its first letter (102) stands as a length byte.
    cases.both(&file.with(|f| f.flows[0].length = Some(0)), 12, 5);
}

/// Every length from 0 to 33, by a name that is really as long.
fn name_lengths(cases: &mut Cases) {
    for length in 0..=33 {
        let file = LoadFile::new(1).flow(&vec![b'~'; length]).block(0, 1, &[1]);
        let number = if length <= 31 { 0 } else { 5 };
        cases.both(&file.bytes(), 6, number);
    }
}

/// The bytes at and beside the edges of 33 to 126, each with its number.
const EDGE_BYTES: [(u8, u32); 10] = [
    (0, 6),
    (1, 6),
    (31, 6),
    (32, 6),
    (33, 0),
    (126, 0),
    (127, 6),
    (128, 6),
    (161, 6),
    (255, 6),
];

/// 6: each edge byte as first, middle and last byte of the first, middle and last name.
fn name_bytes(cases: &mut Cases) {
    let file = with_blocks(three_names());
    for flow in 0..3 {
        let length = file.flows[flow].name.len();
        for place in [0, length / 2, length - 1] {
            for (byte, number) in EDGE_BYTES {
                let changed = file.with(|f| f.flows[flow].name[place] = byte);
                cases.both(&changed, 12, number);
            }
        }
    }
}

/// 6: edge bytes in names of one byte and at both ends of names of 31 bytes, with no blocks.
fn short_and_long_names(cases: &mut Cases) {
    for (byte, number) in EDGE_BYTES {
        cases.both(&LoadFile::new(3).flow(&[byte]).bytes(), 0, number);
        for place in [0, 15, 30] {
            let mut name = [b'q'; 31];
            name[place] = byte;
            cases.both(&LoadFile::new(3).flow(&name).bytes(), 0, number);
        }
    }
}
