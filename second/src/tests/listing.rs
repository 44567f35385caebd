//! The self-tests of the printing program: document 01's listing and others by hand, what its
//! limits cut off, and what the files have to contain.

use std::collections::HashSet;

use crate::build::examples::e5;
use crate::build::load_file::{fit_length_word, LoadFile};
use crate::build::samples::{e3_file, full_file, ten_bytes};
use crate::files::{self, File};
use crate::rules::file::{self, Load};
use crate::rules::listing;
use crate::tests::Checks;

pub fn run(checks: &mut Checks) {
    listings(checks);
    bytes_taken(checks);
    blocks_listed(checks);
    let files = files::all();
    expectations(checks, &files);
    refusals(checks, &files);
    contents(checks, &files);
}

/// E3's listing as document 01 has it, E5's by what document 01 says of it, the longest fields, and
/// listings of one line.
fn listings(checks: &mut Checks) {
    let mut same = |bytes: &[u8], text: &str| {
        let what = format!("listing:\n{}", text);
        checks.check(listing::text(bytes) == text, &what);
    };
    let text = "3 3 3 1 9 31\n\
                A 0 1 1 0 0 2 0-1 1-11\n\
                A 1 2 2 0 0 2 1-2 11-21\n\
                A 2 3 3 0 9 2 11-12 21-31\n";
    same(&e3_file().bytes(), text);
    let names = [Vec::new(), b"b".to_vec()];
    let text = "6 4 2 0 0 19\n\
                - 0 1 1 0 0 1 0-2\n\
                b 4 1 2 0 0 1 2-7\n\
                - 1 2 3 3 0 1 7-8\n\
                - 2 2 3 2 0 1 8-9\n\
                - 3 2 3 1 0 1 9-14\n\
                b 5 2 4 0 0 1 14-19\n";
    same(&LoadFile::of(&e5(), &names).bytes(), text);
    let file = LoadFile::new(4).flow(&[b'~'; 31]);
    let file = file.block(0, 1_000_000_000, &[9, 10_000_000, 0, 10_000_000]);
    let text = "1 1 1 0 0 1020000009\n\
                ~~~~~~~~~~~~~~~~~~~~~~~~~~~~~~~ 0 1 1 0 0 4 1000000000-1000000009 \
                1000000009-1010000009 1010000009-1010000009 1010000009-1020000009\n";
    same(&file.bytes(), text);
    same(&ten_bytes().bytes(), "0 0 0 0 0 0\n");
    same(&[], "refused 1\n");
    same(&LoadFile::new(1).block(0, 0, &[1]).bytes(), "refused 8\n");
}

/// An input of 70,000 bytes is judged by its first 65,536.
fn bytes_taken(checks: &mut Checks) {
    let mut first = e3_file().bytes();
    first.resize(65_536, 0);
    fit_length_word(&mut first);
    let mut all = first.clone();
    all.resize(70_000, 0);
    let of_first = listing::text(&all) == "refused 5\n" && listing::text(&first) == "refused 5\n";
    checks.check(of_first, "a length word that counts the first 65,536 bytes");
    fit_length_word(&mut all);
    let of_all = listing::text(&all) == "refused 2\n";
    checks.check(of_all, "a length word that counts all 70,000 bytes");
}

/// 512 blocks are listed of 512 and of more. One flow, one stage, one tick a block: the k-th row is
/// block k, in a turn and a round of its own.
fn blocks_listed(checks: &mut Checks) {
    let mut file = LoadFile::new(1).flow(b"");
    for _ in 0..511 {
        file = file.block(0, 0, &[1]);
    }
    for blocks in [511, 512, 513, 514] {
        let listed = blocks.min(512);
        let mut text = format!("{0} {0} {0} 0 0 {0}\n", listed);
        for place in 0..listed {
            text += &format!("- {0} {1} {1} 0 0 1 {0}-{1}\n", place, place + 1);
        }
        let same = listing::text(&file.bytes()) == text;
        checks.check(same, &format!("listing of {} blocks", blocks));
        file = file.block(0, 0, &[1]);
    }
    let lines = listing::text(&full_file(4).bytes()).lines().count();
    checks.check(lines == 513, "listing of 1,024 blocks");
}

/// The number by which a listing refuses, 0 if it doesn't.
fn number(file: &File) -> u32 {
    let text = listing::text(&file.bytes);
    let number = text.strip_prefix("refused ").map(|rest| rest.trim_end());
    number.map_or(0, |number| number.parse().expect("a number"))
}

/// Every file against what its maker said; names with which a file can be found.
fn expectations(checks: &mut Checks, files: &[File]) {
    let plain = |c: char| c == '-' || c.is_ascii_lowercase() || c.is_ascii_digit();
    let mut names = HashSet::new();
    for file in files {
        let given = number(file);
        let good = file.number.map_or(true, |number| number == given);
        let what = format!("file {}: {:?}, not {}", file.name, file.number, given);
        checks.check(good, &what);
        let named = file.name.chars().all(plain) && names.insert(&file.name);
        checks.check(named, &format!("name of file {}", file.name));
    }
}

/// Each number that a file can give, twice and more; some of the damaged files are sound.
fn refusals(checks: &mut Checks, files: &[File]) {
    checks.check(files.len() >= 140, "at least 140 files");
    for wanted in 0..12 {
        let count = files.iter().filter(|file| number(file) == wanted).count();
        let good = if wanted == 7 { count == 0 } else { count >= 2 };
        checks.check(good, &format!("files for number {}: {}", wanted, count));
    }
    let damaged = |file: &&File| file.name.starts_with("damaged");
    let sound = files
        .iter()
        .filter(damaged)
        .filter(|file| number(file) == 0);
    checks.check(sound.count() >= 2, "damaged files that are sound");
}

/// The lengths of inputs, and the shapes of sound files.
fn contents(checks: &mut Checks, files: &[File]) {
    for length in [0, 10, 65_535, 65_536, 65_537, 70_000] {
        let there = files.iter().any(|file| file.bytes.len() == length);
        checks.check(there, &format!("a file of {} bytes", length));
    }
    let sound = files
        .iter()
        .filter_map(|file| file::load(&file.bytes, None).ok());
    let loads: Vec<Load> = sound.collect();
    let mut some = |what: &str, good: &dyn Fn(&Load) -> bool| {
        checks.check(loads.iter().any(good), what);
    };
    for stages in 1..=4 {
        some("each stage count", &|load| load.counts.stages == stages);
    }
    for blocks in [0, 511, 512, 513, 1_024] {
        some("each block count", &|load| load.counts.blocks == blocks);
    }
    for flows in [0, 1, 64] {
        some("each flow count", &|load| load.counts.flows == flows);
    }
    some("no flow has a name", &|load| {
        load.counts.blocks > 0 && load.names.iter().all(|name| name.is_empty())
    });
    some("some flows have a name", &|load| {
        load.names.iter().any(|name| name.is_empty())
            && load.names.iter().any(|name| name.len() == 31)
    });
    some("the largest numbers", &|load| {
        let largest = |time: &u32| *time == 10_000_000;
        let mut blocks = load.blocks.iter();
        blocks.any(|block| block.arrival == 1_000_000_000 && block.times.iter().all(largest))
    });
}
