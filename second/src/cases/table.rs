//! The reader's lent table: exactly enough words, too few, and more than needed; number 7.

use crate::build::load_file::LoadFile;
use crate::build::samples::ten_bytes;
use crate::cases::Cases;

pub fn add(cases: &mut Cases) {
    room(cases);
    edge_of_the_digest(cases);
    short_table_and_faulty_header(cases);
    short_table_and_faulty_records(cases);
    stage_times_and_zeros(cases);
}

/// A load of so many blocks, with times that differ at each place.
fn load_of(stages: u8, blocks: u32) -> LoadFile {
    let mut file = LoadFile::new(stages).flows(&["p", "", "r"]);
    for block in 0..blocks {
        let mut times: Vec<u32> = (0..u32::from(stages)).map(|s| 100 * block + s).collect();
        times[0] += 1;
        file = file.block((block % 3) as u16, 1_000 + block / 2, &times);
    }
    file
}

/// Loads of 0, 1, 2 and 9 blocks in tables of every size that matters: none, one word less than
/// enough, exactly enough, and several more, which have to be left as found.
fn room(cases: &mut Cases) {
    for stages in 1..=4 {
        for blocks in [0, 1, 2, 9] {
            let file = load_of(stages, blocks).bytes();
            let needed = 6 * blocks;
            for words in [needed, needed + 1, needed + 5, needed + 6, needed + 20] {
                cases.read(&file, words, 0);
            }
            if needed > 0 {
                for words in [0, 1, 5, needed - 6, needed - 2, needed - 1] {
                    cases.read(&file, words, 7);
                }
            }
        }
    }
}

/// Tables of about 60 words, where the line turns to the digest, and the largest, for loads that
/// need less.
fn edge_of_the_digest(cases: &mut Cases) {
    for words in [54, 59, 60, 61, 62, 1_000, 8_192] {
        cases.read(&load_of(3, 9).bytes(), words, 0);
        cases.read(&load_of(2, 0).bytes(), words, 0);
        cases.read(
            &load_of(2, 11).bytes(),
            words,
            if words < 66 { 7 } else { 0 },
        );
    }
}

/// 1 to 4 come before 7.
fn short_table_and_faulty_header(cases: &mut Cases) {
    let file = load_of(2, 2);
    for words in [0, 1, 11] {
        cases.read(&file.with(|f| f.version = 0), words, 1);
        cases.read(&file.with(|f| f.length_word = Some(1)), words, 2);
        cases.read(&file.with(|f| f.stages = 0), words, 3);
        cases.read(&file.with(|f| f.flow_count = Some(65)), words, 4);
        cases.read(&file.with(|f| f.block_count = Some(1_025)), words, 4);
    }
}

/// 7 comes before 5, 6 and 8 to 11; with one word more the fault itself is given.
fn short_table_and_faulty_records(cases: &mut Cases) {
    let file = load_of(2, 2);
    let faulty = [
        (file.with(|f| f.flows[0].length = Some(32)), 5),
        (file.with(|f| f.blocks[0].length = Some(13)), 5),
        (file.with(|f| f.left_over = vec![9]), 5),
        (file.cut(file.block_start(2) - 1), 5),
        (file.with(|f| f.flows[2].name[0] = 127), 6),
        (file.with(|f| f.blocks[1].flow = 3), 8),
        (file.with(|f| f.blocks[1].arrival = 1_000_000_001), 9),
        (file.with(|f| f.blocks[0].times[1] = 10_000_001), 9),
        (file.with(|f| f.blocks[1].times = vec![0, 0]), 10),
        (file.with(|f| f.blocks[1].arrival = 999), 11),
    ];
    for (bytes, number) in faulty {
        cases.read(&bytes, 0, 7);
        cases.read(&bytes, 11, 7);
        cases.read(&bytes, 12, number);
        cases.read(&bytes, 17, number);
    }
    // The need comes from the header's count, not from the records that are there.
    for (count, number) in [(1, 5), (2, 0), (3, 7), (1_024, 7)] {
        cases.read(&file.with(|f| f.block_count = Some(count)), 12, number);
    }
    for (words, number) in [(6_143, 7), (6_144, 5)] {
        let bytes = ten_bytes().with(|f| f.block_count = Some(1_024));
        cases.read(&bytes, words, number);
    }
}

/// Every stage count in one table: the times of stages that the load lacks are written as 0, and
/// the largest numbers keep all their bytes.
fn stage_times_and_zeros(cases: &mut Cases) {
    for stages in 1..=4u8 {
        let times = vec![10_000_000; usize::from(stages)];
        let other = vec![0x0012_3456; usize::from(stages)];
        let file = LoadFile::new(stages)
            .flows(&["u", "v"])
            .block(1, 0x0102_0304, &times)
            .block(0, 1_000_000_000, &other);
        cases.read(&file.bytes(), 12, 0);
        cases.read(&file.bytes(), 14, 0);
    }
}
