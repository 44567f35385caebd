//! Cases of the header: the numbers 1, 2, 3 and 4.

use crate::build::load_file::{set_length_word, LoadFile};
use crate::build::samples::{small_file, ten_bytes, three_blocks};
use crate::cases::Cases;

pub fn add(cases: &mut Cases) {
    version(cases);
    under_ten_bytes(cases);
    length_word(cases);
    stage_count(cases);
    too_many_flows(cases);
    too_many_blocks(cases);
    counts_in_the_header_alone(cases);
}

/// 1: nothing at all, and first bytes that aren't 1, alone and before a sound rest.
fn version(cases: &mut Cases) {
    cases.both(&[], 0, 1);
    cases.both(&[], 12, 1);
    for version in [0, 2, 3, 16, 127, 128, 129, 255] {
        cases.both(&[version], 0, 1);
        cases.both(&ten_bytes().with(|f| f.version = version), 2, 1);
        cases.both(&small_file().with(|f| f.version = version), 20, 1);
    }
}

/// 2: files of 1 to 9 bytes with the right version, once with the length word of the ten bytes
/// and once with a length word that counts what is there.
fn under_ten_bytes(cases: &mut Cases) {
    let whole = ten_bytes().bytes();
    for length in 1..10 {
        cases.both(&whole[..length], 3, 2);
        cases.both(&ten_bytes().cut(length), 3, 2);
    }
}

/// 2: length words that don't count the bytes after byte 4.
fn length_word(cases: &mut Cases) {
    for file in [ten_bytes(), small_file(), three_blocks(4)] {
        let right = file.bytes().len() as u32 - 5;
        let wrong = [
            right - 1,
            right + 1,
            right.swap_bytes(),
            right << 8,
            right + 5,
            right - 5,
            right + 0x100,
            right + 0x1_0000,
            right + 0x100_0000,
            right + 0x8000_0000,
            0,
            u32::MAX,
        ];
        for word in wrong {
            let mut bytes = file.bytes();
            set_length_word(&mut bytes, word);
            if word != right {
                cases.both(&bytes, file.words() + 1, 2);
            }
        }
    }
}

/// 3: stage counts that don't exist; 1 to 4 are accepted.
fn stage_count(cases: &mut Cases) {
    for stages in [0, 5, 6, 8, 128, 129, 255] {
        cases.both(&ten_bytes().with(|f| f.stages = stages), 1, 3);
        cases.both(&small_file().with(|f| f.stages = stages), 18, 3);
    }
    for stages in 1..=4 {
        cases.both(&LoadFile::new(stages).bytes(), 1, 0);
        cases.both(&three_blocks(stages).bytes(), 18, 0);
    }
}

/// 4 in a file that has nothing else wrong: 65 flows; and 64, which are accepted.
fn too_many_flows(cases: &mut Cases) {
    let mut file = LoadFile::new(2);
    for _ in 0..64 {
        file = file.flow(b"x");
    }
    cases.both(&file.bytes(), 3, 0);
    let file = file.flow(b"x");
    cases.both(&file.bytes(), 3, 4);
    let file = file.block(64, 0, &[1, 1]);
    cases.both(&file.bytes(), 6, 4);
}

/// 4 in a file that has nothing else wrong: 1,025 blocks, in tables that would be large enough
/// and in one that wouldn't.
fn too_many_blocks(cases: &mut Cases) {
    let mut file = LoadFile::new(1).flow(b"");
    for block in 0..1_025 {
        file = file.block(0, block, &[1]);
    }
    cases.both(&file.bytes(), 6_150, 4);
    cases.read(&file.bytes(), 6_149, 4);
}

/// 4 by the counts alone, with no record that would bear them out; also 64 and 1,024 in the wrong
/// order of bytes, and counts whose low byte alone would be accepted.
fn counts_in_the_header_alone(cases: &mut Cases) {
    for flows in [65, 66, 127, 128, 256, 257, 0x4000, 0x8000, 65_535] {
        cases.both(&ten_bytes().with(|f| f.flow_count = Some(flows)), 0, 4);
        cases.both(&small_file().with(|f| f.flow_count = Some(flows)), 18, 4);
    }
    for blocks in [1_025, 1_026, 1_280, 2_048, 0x8000, 0xFF00, 65_535] {
        cases.both(&ten_bytes().with(|f| f.block_count = Some(blocks)), 0, 4);
        cases.both(
            &small_file().with(|f| f.block_count = Some(blocks)),
            8_192,
            4,
        );
    }
    let both = ten_bytes().with(|f| {
        f.flow_count = Some(65);
        f.block_count = Some(1_025);
    });
    cases.both(&both, 8_192, 4);
    // 64 flows and 1,024 blocks pass test 4, so the missing records are seen instead.
    let edge = ten_bytes().with(|f| {
        f.flow_count = Some(64);
        f.block_count = Some(1_024);
    });
    cases.both(&edge, 8_192, 5);
}
