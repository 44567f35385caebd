//! Cases of the block records: the numbers 5, 8, 9, 10 and 11.

use crate::build::load_file::LoadFile;
use crate::build::samples::three_blocks;
use crate::cases::Cases;

pub fn add(cases: &mut Cases) {
    wrong_length_byte(cases);
    wrong_length_record(cases);
    record_past_the_end(cases);
    left_over(cases);
    block_count(cases);
    flow_numbers(cases);
    flow_numbers_at_the_edges(cases);
    arrivals_above_the_limit(cases);
    times_above_the_limit(cases);
    no_time(cases);
    one_time_is_enough(cases);
    out_of_order(cases);
    order_by_all_four_bytes(cases);
}

/// 5: a wrong length byte over a record of the right size, in the first, middle and last block
/// of each stage count.
fn wrong_length_byte(cases: &mut Cases) {
    for stages in 1..=4 {
        let file = three_blocks(stages);
        let right = 6 + 4 * stages;
        for block in 0..3 {
            for length in [right - 1, right + 1, 0, 255] {
                let changed = file.with(|f| f.blocks[block].length = Some(length));
                cases.both(&changed, 19, 5);
            }
        }
    }
}

/// 5: a record that is really one byte or one stage time shorter or longer, as its length byte
/// says, in the first, middle and last block of each stage count.
fn wrong_length_record(cases: &mut Cases) {
    for stages in 1..=4 {
        let file = three_blocks(stages);
        let right = 6 + 4 * stages;
        for block in 0..3 {
            for stretch in [-4, -1, 1, 4] {
                let changed = file.with(|f| {
                    f.blocks[block].stretch = stretch;
                    f.blocks[block].length = Some((right as isize + stretch) as u8);
                });
                cases.both(&changed, 19, 5);
            }
        }
    }
}

/// 5: the file ends just before a block's length byte, right after it, or one byte before the
/// block's end.
fn record_past_the_end(cases: &mut Cases) {
    for stages in 1..=4 {
        let file = three_blocks(stages);
        for block in 0..3 {
            let start = file.block_start(block);
            for keep in [start, start + 1, file.block_start(block + 1) - 1] {
                cases.both(&file.cut(keep), 19, 5);
            }
        }
    }
}

/// 5: bytes after the last record, after blocks, after flows alone and after the header alone.
fn left_over(cases: &mut Cases) {
    for stages in 1..=4 {
        let length = 6 + 4 * stages;
        for rest in [vec![0], vec![length], vec![255; 40]] {
            let change = |f: &mut LoadFile| f.left_over = rest.clone();
            cases.both(&three_blocks(stages).with(change), 18, 5);
            cases.both(&LoadFile::new(stages).flows(&["", "y"]).with(change), 1, 5);
            cases.both(&LoadFile::new(stages).with(change), 0, 5);
        }
    }
}

/// 5: the block count is one off, so that a whole record is left over or missing.
fn block_count(cases: &mut Cases) {
    for stages in 1..=4 {
        let file = three_blocks(stages);
        for count in [0, 1, 2, 4, 5] {
            cases.both(&file.with(|f| f.block_count = Some(count)), 30, 5);
        }
    }
}

/// 8: flow numbers from the flow count on, in the first, middle and last block; 256 and 512 are 1
/// and 2 with the bytes exchanged. The flows 0, 1 and 2 are accepted.
fn flow_numbers(cases: &mut Cases) {
    for stages in [1, 2, 4] {
        let file = three_blocks(stages);
        for block in 0..3 {
            for flow in [3, 4, 255, 256, 512, 0x8000, 65_535] {
                cases.both(&file.with(|f| f.blocks[block].flow = flow), 20, 8);
            }
            for flow in 0..3 {
                cases.both(&file.with(|f| f.blocks[block].flow = flow), 20, 0);
            }
        }
    }
}

/// 8 where there are no flows at all, and on both sides of 64 flows.
fn flow_numbers_at_the_edges(cases: &mut Cases) {
    for flow in [0, 1, 65_535] {
        let file = LoadFile::new(1).block(flow, 0, &[1]);
        cases.both(&file.bytes(), 6, 8);
    }
    let mut file = LoadFile::new(1);
    for _ in 0..64 {
        file = file.flow(b"");
    }
    let file = file.block(0, 0, &[1]);
    for (flow, number) in [(0, 0), (63, 0), (64, 8), (65, 8), (256, 8), (65_535, 8)] {
        cases.both(&file.with(|f| f.blocks[0].flow = flow), 7, number);
    }
}

/// 9 for the arrival, in the first, middle and last block of each stage count.
fn arrivals_above_the_limit(cases: &mut Cases) {
    for stages in 1..=4 {
        for block in 0..3 {
            for arrival in [1_000_000_001, 0x8000_0000, u32::MAX] {
                let file = three_blocks(stages);
                let changed = file.with(|f| f.blocks[block].arrival = arrival);
                cases.both(&changed, 20, 9);
            }
        }
    }
}

/// 9 for each stage time of each stage count, in the first, middle and last block; the limit
/// itself is accepted.
fn times_above_the_limit(cases: &mut Cases) {
    for stages in 1..=4u8 {
        let file = three_blocks(stages);
        for block in 0..3 {
            for stage in 0..usize::from(stages) {
                for (time, number) in [(10_000_000, 0), (10_000_001, 9), (u32::MAX, 9)] {
                    let changed = file.with(|f| f.blocks[block].times[stage] = time);
                    cases.both(&changed, 20, number);
                }
            }
        }
    }
}

/// 10 in the first, middle and last block of each stage count.
fn no_time(cases: &mut Cases) {
    for stages in 1..=4u8 {
        for block in 0..3 {
            let zeros = vec![0; usize::from(stages)];
            let changed = three_blocks(stages).with(|f| f.blocks[block].times = zeros);
            cases.both(&changed, 20, 10);
        }
    }
}

/// A single time above 0 is enough, at whichever stage, in whichever byte of the word it shows.
fn one_time_is_enough(cases: &mut Cases) {
    for stages in 1..=4u8 {
        for stage in 0..usize::from(stages) {
            for time in [1, 256, 65_536] {
                let mut times = vec![0; usize::from(stages)];
                times[stage] = time;
                let file = LoadFile::new(stages).flows(&["z"]).block(0, 7, &times);
                cases.both(&file.bytes(), 7, 0);
            }
        }
    }
}

/// 11: each block but the first arrives one tick, or much, before the one above it; an equal
/// arrival is accepted.
fn out_of_order(cases: &mut Cases) {
    for stages in 1..=4 {
        let file = three_blocks(stages);
        for block in 1..3 {
            let above = file.blocks[block - 1].arrival;
            for (arrival, number) in [(above - 1, 11), (0, 11), (above, 0), (above + 1, 0)] {
                let changed = file.with(|f| f.blocks[block].arrival = arrival);
                cases.both(&changed, 20, number);
            }
        }
        // The first block has none above it, so the second is the one that comes too early.
        cases.both(&file.with(|f| f.blocks[0].arrival = 21), 20, 11);
    }
}

/// 11 decided by each byte of the arrival: pairs beside the places where a byte is carried.
fn order_by_all_four_bytes(cases: &mut Cases) {
    for high in [1, 0x100, 0x1_0000, 0x100_0000, 1_000_000_000] {
        for (above, below, number) in [
            (high - 1, high, 0),
            (high, high - 1, 11),
            (high, high, 0),
            (high, 0, 11),
        ] {
            let file = LoadFile::new(1)
                .flows(&["s", "t"])
                .block(1, above, &[4])
                .block(0, below, &[4]);
            cases.both(&file.bytes(), 12, number);
        }
    }
}
