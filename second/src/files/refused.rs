//! Files that are refused: each number that a file can give, at more than one place. The program's
//! tables are long enough for every load, so no file gives 7.

use crate::build::load_file::LoadFile;
use crate::build::samples::{full_file, small_file, ten_bytes, three_blocks};
use crate::files::Files;

pub fn add(files: &mut Files) {
    header(files);
    records(files);
    names(files);
    flow_numbers(files);
    numbers_of_blocks(files);
    several_faults(files);
}

/// 1, 2, 3, and 4 by the counts alone.
fn header(files: &mut Files) {
    let file = small_file();
    files.refused(1, "empty", Vec::new());
    files.refused(1, "one-byte", vec![2]);
    files.refused(1, "version-0", file.with(|f| f.version = 0));
    files.refused(1, "version-2", file.with(|f| f.version = 2));
    let right = file.bytes().len() as u32 - 5;
    files.refused(2, "one-byte", vec![1]);
    files.refused(2, "nine-bytes", ten_bytes().cut(9));
    files.refused(
        2,
        "word-low",
        file.with(|f| f.length_word = Some(right - 1)),
    );
    files.refused(
        2,
        "word-high",
        file.with(|f| f.length_word = Some(right + 1)),
    );
    let swapped = right.swap_bytes();
    files.refused(
        2,
        "word-swapped",
        file.with(|f| f.length_word = Some(swapped)),
    );
    for stages in [0, 5, 255] {
        let name = format!("stages-{}", stages);
        files.refused(3, &name, file.with(|f| f.stages = stages));
    }
    files.refused(4, "flow-count", file.with(|f| f.flow_count = Some(65_535)));
    files.refused(4, "block-count", file.with(|f| f.block_count = Some(1_025)));
}

/// 5: wrong length bytes, a record that runs past the end, and bytes left over.
fn records(files: &mut Files) {
    let file = small_file();
    files.refused(
        5,
        "name-length",
        file.with(|f| f.flows[2].length = Some(255)),
    );
    for length in [13, 15] {
        let name = format!("block-length-{}", length);
        files.refused(5, &name, file.with(|f| f.blocks[2].length = Some(length)));
    }
    files.refused(5, "flow-cut", file.cut(file.flow_start(3) - 1));
    files.refused(5, "block-cut", file.cut(file.block_start(3) - 1));
    files.refused(5, "block-missing", file.with(|f| f.block_count = Some(4)));
    files.refused(5, "left-over", file.with(|f| f.left_over = vec![0]));
}

/// 6: the bytes beside 33 and 126, and the two ends.
fn names(files: &mut Files) {
    for byte in [0, 32, 127, 255] {
        let name = format!("name-byte-{}", byte);
        files.refused(6, &name, small_file().with(|f| f.flows[2].name[0] = byte));
    }
}

/// 8: the flow count itself, the largest number, and a file without flows.
fn flow_numbers(files: &mut Files) {
    let file = small_file();
    files.refused(8, "flow-3-of-3", file.with(|f| f.blocks[2].flow = 3));
    files.refused(8, "flow-65535", file.with(|f| f.blocks[0].flow = 65_535));
    files.refused(8, "no-flows", LoadFile::new(1).block(0, 0, &[1]).bytes());
    let last = full_file(4).with(|f| f.blocks[1_023].flow = 64);
    files.refused(8, "last-of-1024-blocks", last);
}

/// 9, 10 and 11, also in the last of 1,024 blocks, of which only 512 would be listed.
fn numbers_of_blocks(files: &mut Files) {
    let file = three_blocks(4);
    let last = full_file(1);
    for stage in 0..4 {
        let name = format!("time-at-stage-{}", stage + 1);
        files.refused(
            9,
            &name,
            file.with(|f| f.blocks[1].times[stage] = 10_000_001),
        );
    }
    files.refused(
        9,
        "largest-arrival",
        file.with(|f| f.blocks[2].arrival = u32::MAX),
    );
    let high = last.with(|f| f.blocks[1_023].arrival = 1_000_000_001);
    files.refused(9, "last-of-1024-blocks", high);
    files.refused(
        10,
        "first-block",
        file.with(|f| f.blocks[0].times = vec![0; 4]),
    );
    files.refused(
        10,
        "last-block",
        file.with(|f| f.blocks[2].times = vec![0; 4]),
    );
    let zero = last.with(|f| f.blocks[1_023].times = vec![0]);
    files.refused(10, "last-of-1024-blocks", zero);
    files.refused(11, "second-block", file.with(|f| f.blocks[1].arrival = 9));
    files.refused(11, "third-block", file.with(|f| f.blocks[2].arrival = 19));
    let early = last.with(|f| f.blocks[1_023].arrival = 0);
    files.refused(11, "last-of-1024-blocks", early);
}

/// The first fault by the order of the tests is given.
fn several_faults(files: &mut Files) {
    let both = three_blocks(2).with(|f| {
        f.blocks[0].arrival = 1_000_000_001;
        f.blocks[1].flow = 3;
        f.left_over = vec![0];
    });
    files.refused(9, "before-8-and-5", both);
    let both = three_blocks(2).with(|f| {
        f.version = 0;
        f.length_word = Some(0);
        f.stages = 0;
    });
    files.refused(1, "before-2-and-3", both);
}
