//! The name call: names of the file's own, flows that aren't in the file, unsound files.

use crate::build::load_file::LoadFile;
use crate::build::samples::three_blocks;
use crate::cases::Cases;

pub fn add(cases: &mut Cases) {
    own_names(cases);
    flows_not_in_the_file(cases);
    unsound_files(cases);
    no_flows(cases);
    own_and_empty_mixed(cases);
    files_of_every_shape(cases);
}

/// A standing list of these entries.
pub fn list(entries: &[&[u8]]) -> Vec<u8> {
    let mut out = Vec::new();
    for entry in entries {
        out.push(entry.len() as u8);
        out.extend_from_slice(entry);
    }
    out
}

/// Names of 0, 1, 30 and 31 bytes, of which only the first is without one, under lists that are
/// empty, short and long: an own name never depends on the list.
fn own_names(cases: &mut Cases) {
    let thirty = [b'!'; 30];
    let longest: Vec<u8> = (96..127).collect();
    let own: [&[u8]; 4] = [b"", b"k", &thirty, &longest];
    let file = own
        .iter()
        .fold(LoadFile::new(2), |file, name| file.flow(name));
    let file = file.block(3, 1, &[1, 0]).bytes();
    let lists: [&[u8]; 5] = [
        b"",
        b"\x00",
        b"\x02st",
        b"\x02st\x01",
        b"\x02st\x01s\x03own\x04list",
    ];
    for standing in lists {
        let first: &[u8] = if standing.len() > 2 { b"st" } else { b"" };
        cases.name(&file, standing, 0, first);
        for flow in 1..4u32 {
            cases.name(&file, standing, flow, own[flow as usize]);
        }
    }
}

/// Flow numbers from the flow count on, also such that would be a flow of the file if only their
/// low 8 or 16 bits counted. The list has an entry for some of them.
fn flows_not_in_the_file(cases: &mut Cases) {
    let standing = list(&[b"zero", b"one", b"two", b"three", b"four"]);
    let numbers = [
        3,
        4,
        5,
        63,
        64,
        255,
        256,
        65_535,
        65_536,
        65_537,
        0x8000_0000,
        u32::MAX,
    ];
    for names in [["", "", ""], ["a", "b", "c"]] {
        let file = LoadFile::new(1).flows(&names).block(2, 0, &[1]).bytes();
        for flow in numbers {
            cases.name(&file, &standing, flow, b"");
            cases.name(&file, &[], flow, b"");
        }
    }
}

/// A file for each number that the soundness call can give.
fn unsound_file(number: u32) -> Vec<u8> {
    let mut file = three_blocks(2);
    file.flows[1].name.clear();
    file.with(|f| match number {
        1 => f.version = 2,
        2 => f.length_word = Some(10),
        3 => f.stages = 5,
        4 => f.flow_count = Some(65),
        5 => f.left_over = vec![0],
        6 => f.flows[2].name[1] = 127,
        8 => f.blocks[2].flow = 3,
        9 => f.blocks[2].arrival = 1_000_000_001,
        10 => f.blocks[2].times = vec![0, 0],
        11 => f.blocks[2].arrival = 19,
        _ => {}
    })
}

/// An unsound file shows nothing, neither its own name (flow 0) nor the list's (flow 1), though
/// the fault is behind both; the same file without the fault shows them.
fn unsound_files(cases: &mut Cases) {
    let standing = list(&[b"zero", b"one", b"two"]);
    for number in [1, 2, 3, 4, 5, 6, 8, 9, 10, 11] {
        let file = unsound_file(number);
        cases.sound(&file, number);
        for flow in 0..3 {
            cases.name(&file, &standing, flow, b"");
        }
    }
    let sound = unsound_file(0);
    cases.name(&sound, &standing, 0, b"ab");
    cases.name(&sound, &standing, 1, b"one");
    cases.name(&sound, &standing, 2, b"ef");
    cases.name(&[], &standing, 0, b"");
    cases.name(&sound[..sound.len() - 1], &standing, 0, b"");
    // Test 7 is the reader's alone: no table is lent here and the file is sound.
    cases.sound(&sound, 0);
}

/// A file with no flows has no name to show, whatever the list holds.
fn no_flows(cases: &mut Cases) {
    let standing = list(&[b"zero", b"one"]);
    for stages in 1..=4 {
        for flow in [0, 1, 2, u32::MAX] {
            cases.name(&LoadFile::new(stages).bytes(), &standing, flow, b"");
        }
    }
}

/// 64 flows, every third without a name, and a list of 64 entries; each flow and the one beyond.
fn own_and_empty_mixed(cases: &mut Cases) {
    let own = |flow: u32| match flow % 3 {
        1 => Vec::new(),
        _ => format!("f{}", flow).into_bytes(),
    };
    let mut file = LoadFile::new(1);
    let mut standing = Vec::new();
    for flow in 0..64 {
        file = file.flow(&own(flow));
        standing.extend_from_slice(&list(&[format!("s{}", flow).as_bytes()]));
    }
    let file = file.bytes();
    for flow in 0..64 {
        let shown = match flow % 3 {
            1 => format!("s{}", flow).into_bytes(),
            _ => own(flow),
        };
        cases.name(&file, &standing, flow, &shown);
    }
    cases.name(&file, &standing, 64, b"");
    // The list one byte short: the last flow without a name is 61, whose entry is whole.
    cases.name(&file, &standing[..standing.len() - 1], 61, b"s61");
}

/// The blocks behind the names don't change what is shown.
fn files_of_every_shape(cases: &mut Cases) {
    let standing = list(&[b"st0", b"st1", b"st2"]);
    for stages in 1..=4 {
        let mut file = three_blocks(stages);
        file.flows[2].name.clear();
        cases.name(&file.bytes(), &standing, 0, b"ab");
        cases.name(&file.bytes(), &standing, 1, b"cd");
        cases.name(&file.bytes(), &standing, 2, b"st2");
        file.blocks.clear();
        cases.name(&file.bytes(), &standing, 0, b"ab");
        cases.name(&file.bytes(), &standing, 2, b"st2");
    }
}
