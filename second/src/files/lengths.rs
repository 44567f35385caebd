//! Inputs about as long as the program takes, and longer: what counts is the first 65,536 bytes.
//! The longest sound file has 25,610 bytes, so all of them are refused.

use crate::build::load_file::{set_length_word, LoadFile};
use crate::build::samples::{e3_file, full_file};
use crate::files::Files;

/// The bytes that the program takes at most.
const TAKEN: usize = 65_536;
const LENGTHS: [usize; 4] = [TAKEN - 1, TAKEN, TAKEN + 1, 70_000];

pub fn add(files: &mut Files) {
    for length in LENGTHS {
        nothing_in_it(files, length);
        sound_beginning(files, length);
    }
    faults_of_records(files);
}

/// So many bytes, a file's own and zeros behind it.
fn padded(file: &[u8], length: usize) -> Vec<u8> {
    let mut bytes = file.to_vec();
    bytes.resize(length, 0);
    bytes
}

/// The same under a length word that counts so many bytes.
fn counted(file: &[u8], length: usize, count: usize) -> Vec<u8> {
    let mut bytes = padded(file, length);
    set_length_word(&mut bytes, count as u32 - 5);
    bytes
}

fn nothing_in_it(files: &mut Files, length: usize) {
    files.refused(1, &format!("zeros-{}", length), padded(&[], length));
}

/// Sound files with zeros behind. Their own length word is wrong (2), and so is one that counts
/// bytes beyond those taken; under one that counts the bytes taken, zeros are left over (5).
fn sound_beginning(files: &mut Files, length: usize) {
    for (name, file) in [("e3", e3_file()), ("full", full_file(4))] {
        let file = file.bytes();
        let own = format!("{}-own-word-{}", name, length);
        files.refused(2, &own, padded(&file, length));
        let taken = format!("{}-taken-counted-{}", name, length);
        let word = length.min(TAKEN);
        files.refused(5, &taken, counted(&file, length, word));
        if length > TAKEN {
            let all = format!("{}-all-counted-{}", name, length);
            files.refused(2, &all, counted(&file, length, length));
        }
    }
}

/// In an input of 70,000 bytes whose length word counts the bytes taken, a fault of the header or
/// of a record comes before the bytes left over.
fn faults_of_records(files: &mut Files) {
    let mut add = |number: u32, change: fn(&mut LoadFile)| {
        let file = full_file(4).with(change);
        let bytes = counted(&file, 70_000, TAKEN);
        files.refused(number, "in-70000", bytes);
    };
    add(3, |f| f.stages = 5);
    add(4, |f| f.block_count = Some(1_025));
    add(6, |f| f.flows[63].name[30] = 127);
    add(8, |f| f.blocks[1_023].flow = 64);
    add(9, |f| f.blocks[1_023].times[3] = 10_000_001);
    add(10, |f| f.blocks[1_023].times = vec![0; 4]);
    add(11, |f| f.blocks[1_023].arrival = 1);
}
