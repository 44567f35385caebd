//! Generated cases: random sound loads, the same with changed bytes, loads of edge values in
//! records of the right shape, and random bytes behind a good header; for all three calls.

use crate::build::load_file::LoadFile;
use crate::build::random::Random;
use crate::build::random_files;
use crate::cases::Cases;

pub fn add(cases: &mut Cases) {
    let mut random = Random::new(20_240_101);
    for _ in 0..130 {
        sound_and_changed(cases, &mut random);
    }
    for _ in 0..100 {
        edge_values(cases, &mut random);
    }
    for _ in 0..60 {
        random_bytes(cases, &mut random);
    }
}

/// A random sound load as it is, and with one to three changed bytes, for the three calls.
fn sound_and_changed(cases: &mut Cases, random: &mut Random) {
    let load = random_files::sound(random);
    let bytes = load.bytes();
    cases.sound(&bytes, 0);
    let words = load.words();
    if words > 0 && random.once_in(8) {
        cases.read(&bytes, random.below(words as usize) as u32, 7);
    } else {
        cases.read(&bytes, words + random.below(4) as u32, 0);
    }
    add_name(cases, random, &load, &bytes);

    let mut changed = bytes;
    for _ in 0..random.between(1, 3) {
        random_files::change_a_byte(random, &mut changed);
    }
    cases.both_open(&changed, words + random.below(4) as u32);
    add_name(cases, random, &load, &changed);
}

/// Files of edge values, for the three calls.
fn edge_values(cases: &mut Cases, random: &mut Random) {
    let load = random_files::edge_values(random);
    let bytes = load.bytes();
    cases.both_open(&bytes, load.words() + random.below(3) as u32);
    add_name(cases, random, &load, &bytes);
}

/// Random bytes behind a header with good counts and a length word that fits.
fn random_bytes(cases: &mut Cases, random: &mut Random) {
    let mut load = LoadFile::new(random.between(1, 4) as u8);
    load.flow_count = Some(random.below(5) as u16);
    load.block_count = Some(random.below(4) as u16);
    // Bytes that stand for something, so that the reader gets further than into the first record.
    let likely = [0, 0, 0, 0, 1, 2, 10, 14, 18, 22, 33, 65, 126];
    let any = random.once_in(3);
    for _ in 0..random.below(70) {
        let byte = if any {
            random.byte()
        } else {
            random.pick(&likely)
        };
        load.left_over.push(byte);
    }
    let bytes = load.bytes();
    cases.both_open(&bytes, random.below(20) as u32);
    add_name(cases, random, &load, &bytes);
}

/// One name call for a flow about those of the file, with a random list.
fn add_name(cases: &mut Cases, random: &mut Random, load: &LoadFile, file: &[u8]) {
    let flow = random.below(load.flows.len() + 1) as u32;
    let standing = standing_list(random, load.flows.len());
    cases.name_open(file, &standing, flow);
}

/// A list of about as many entries as there are flows, now and then cut off.
fn standing_list(random: &mut Random, flows: usize) -> Vec<u8> {
    let mut out = Vec::new();
    for _ in 0..random.between(flows.saturating_sub(1), flows + 2) {
        let length = random.below(6);
        out.push(length as u8);
        for _ in 0..length {
            out.push(random.byte());
        }
    }
    if random.once_in(3) {
        out.truncate(random.below(out.len() + 1));
    }
    out
}
