//! Sound files at the edges of what a load can be: names, stages, counts and the largest numbers.

use crate::build::load_file::LoadFile;
use crate::build::loads::{self, Arrivals, Owners, Shape, Times};
use crate::build::plan_load::PlanLoad;
use crate::build::random::Random;
use crate::build::samples::{full_file, three_blocks};
use crate::files::Files;

pub fn add(files: &mut Files) {
    names(files);
    stages(files);
    around_512_blocks(files);
    limit_within_a_turn(files);
    largest_numbers(files);
}

/// The file of a load whose flows have no names.
fn unnamed(load: &PlanLoad) -> LoadFile {
    LoadFile::of(load, &vec![Vec::new(); load.flows])
}

/// The file of a load whose flows have names of 31 bytes.
fn long_named(load: &PlanLoad) -> LoadFile {
    let name = |flow: usize| format!("{:~>31}", flow).into_bytes();
    let names: Vec<Vec<u8>> = (0..load.flows).map(name).collect();
    LoadFile::of(load, &names)
}

/// Flows without names, between others and alone; names that look like something else that is
/// printed; every byte that a name can have.
fn names(files: &mut Files) {
    let blocks = |names: [&[u8]; 3]| {
        let file = names.iter().fold(LoadFile::new(2), |f, name| f.flow(name));
        let file = file.block(2, 0, &[1, 3]).block(0, 1, &[2, 0]);
        file.block(1, 1, &[0, 4]).block(0, 5, &[3, 3])
    };
    files.sound("name-none-first", &blocks([b"", b"b", b"c"]));
    files.sound("name-none-last", &blocks([b"a", b"b", b""]));
    files.sound("name-none-but-one", &blocks([b"", b"b", b""]));
    files.sound("name-none", &blocks([b"", b"", b""]));
    files.sound("name-dash", &blocks([b"-", b"--", b""]));
    files.sound("name-number", &blocks([b"0", b"refused", b"1-2"]));
    let all: Vec<u8> = (33..=126).collect();
    files.sound(
        "name-bytes-33-to-125",
        &blocks([&all[..31], &all[31..62], &all[62..93]]),
    );
    files.sound("name-byte-126", &blocks([&all[93..], b"!", b"~~"]));
    let mut none = full_file(2);
    for flow in &mut none.flows {
        flow.name.clear();
    }
    files.sound("name-none-of-64", &none);
}

/// Each stage count with blocks, with flows alone, and with nothing.
fn stages(files: &mut Files) {
    for stages in 1..=4 {
        let name = |what: &str| format!("stages-{}-{}", stages, what);
        files.sound(&name("three-blocks"), &three_blocks(stages));
        let flows = LoadFile::new(stages).flows(&["a", "", "c"]);
        files.sound(&name("no-blocks"), &flows);
        files.sound(&name("no-flows"), &LoadFile::new(stages));
    }
}

/// As many blocks as are listed, one less, one more, and the most that a load has: by turns of many
/// flows, and all of one.
fn around_512_blocks(files: &mut Files) {
    let mut random = Random::new(20_240_301);
    for blocks in [511, 512, 513, 1_024] {
        for (flows, owners) in [(64, Owners::ByTurns), (5, Owners::Runs), (1, Owners::Mixed)] {
            let shape = Shape {
                stages: random.between(1, 4),
                flows,
                blocks,
                arrivals: Arrivals::Crowded,
                times: Times::Ties,
                owners,
            };
            let load = loads::make(&mut random, &shape);
            let name = format!("blocks-{}-flows-{}", blocks, flows);
            files.sound(&name, &long_named(&load));
        }
    }
}

/// The 512th row is within a turn of many blocks: flow 1 comes into a round whose credit is 999.
fn limit_within_a_turn(files: &mut Files) {
    let mut file = LoadFile::new(2).flows(&["one", "other"]);
    file = file.block(0, 0, &[999, 0]).block(0, 0, &[999, 0]);
    for _ in 0..900 {
        file = file.block(1, 1, &[1, 1]);
    }
    files.sound("blocks-512-within-a-turn", &file);
}

/// The last arrival and the longest times. With one flow and four stages the ticks and the held
/// ticks go beyond 32 bits, and the lines are nearly as long as they can be.
fn largest_numbers(files: &mut Files) {
    for (stages, flows, blocks) in [
        (1, 1, 1),
        (4, 1, 1),
        (4, 64, 64),
        (4, 64, 1_024),
        (1, 64, 1_024),
        (2, 1, 331),
        (4, 1, 112),
        (4, 1, 1_024),
    ] {
        let load = loads::largest(stages, flows, blocks);
        let name = format!(
            "largest-{}-stages-{}-flows-{}-blocks",
            stages, flows, blocks
        );
        files.sound(&name, &long_named(&load));
    }
    let load = loads::largest(4, 64, 512);
    files.sound("largest-without-names", &unnamed(&load));
}
