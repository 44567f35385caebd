//! The boundary examples of document 01, and files that are as full as they can be.

use crate::build::load_file::LoadFile;
use crate::build::samples::{e3_file, full_file, ten_bytes};
use crate::cases::Cases;

pub fn add(cases: &mut Cases) {
    small_examples(cases);
    arrival_examples(cases);
    time_examples(cases);
    name_examples(cases);
    full_files(cases);
    full_files_with_a_late_fault(cases);
    many_flows_without_blocks(cases);
}

/// The ten bytes, given as document 01 writes them, and E3's file of 57 bytes.
fn small_examples(cases: &mut Cases) {
    let ten = [1, 0, 0, 0, 5, 1, 0, 0, 0, 0];
    cases.both(&ten, 0, 0);
    cases.both(&ten, 7, 0);
    cases.both(&ten_bytes().bytes(), 1, 0);
    cases.both(&e3_file().bytes(), 18, 0);
    cases.name(&e3_file().bytes(), &[], 0, b"A");
}

/// Arrival 1,000,000,000 and one more, with each stage count.
fn arrival_examples(cases: &mut Cases) {
    for stages in 1..=4u8 {
        let times = vec![1; usize::from(stages)];
        for (arrival, number) in [(999_999_999, 0), (1_000_000_000, 0), (1_000_000_001, 9)] {
            let file = LoadFile::new(stages)
                .flows(&["a"])
                .block(0, arrival, &times);
            cases.both(&file.bytes(), 6, number);
        }
    }
}

/// Time 10,000,000 and one more, alone and at all stages.
fn time_examples(cases: &mut Cases) {
    for stages in 1..=4u8 {
        for (time, number) in [(9_999_999, 0), (10_000_000, 0), (10_000_001, 9)] {
            let times = vec![time; usize::from(stages)];
            let file = LoadFile::new(stages).flows(&["a"]).block(0, 5, &times);
            cases.both(&file.bytes(), 6, number);
        }
    }
}

/// Names of 31 and 32 bytes, with nothing after them.
fn name_examples(cases: &mut Cases) {
    for (length, number) in [(30, 0), (31, 0), (32, 5)] {
        let name = vec![b'N'; length];
        cases.both(&LoadFile::new(1).flow(&name).bytes(), 0, number);
        cases.both(&LoadFile::new(1).flow(b"m").flow(&name).bytes(), 0, number);
    }
}

/// 64 flows and 1,024 blocks, in tables of exactly enough words, one less, and the most a case
/// can lend.
fn full_files(cases: &mut Cases) {
    for stages in [1, 4] {
        let file = full_file(stages).bytes();
        cases.both(&file, 6_144, 0);
        cases.read(&file, 6_143, 7);
        cases.read(&file, 8_192, 0);
    }
    let file = full_file(4);
    cases.name(&file.bytes(), &[], 63, &file.flows[63].name);
}

/// Faults in the last block of a full file and after it: the table has to be as before even where
/// 1,023 blocks were good.
fn full_files_with_a_late_fault(cases: &mut Cases) {
    let file = full_file(1);
    cases.both(&file.with(|f| f.blocks[1_023].arrival = 1), 6_144, 11);
    cases.both(&file.with(|f| f.left_over = vec![11]), 6_144, 5);
    let cut = file.cut(file.block_start(1_024) - 1);
    cases.read(&cut, 6_145, 5);
    let four = full_file(4).with(|f| f.blocks[1_023].flow = 64);
    cases.both(&four, 6_144, 8);
}

/// 64 flows with names of every length and no blocks; one more flow is refused.
fn many_flows_without_blocks(cases: &mut Cases) {
    let mut file = LoadFile::new(3);
    for flow in 0..64 {
        file = file.flow(&vec![b'!'; flow % 32]);
    }
    cases.both(&file.bytes(), 0, 0);
    cases.both(&file.flow(b"").bytes(), 0, 4);
}
