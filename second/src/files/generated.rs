//! Random files: sound loads of many shapes, values from both sides of the limits, and sound files
//! that were damaged.

use crate::build::load_file::{fit_length_word, LoadFile};
use crate::build::loads;
use crate::build::random::Random;
use crate::build::random_files;
use crate::files::Files;

pub fn add(files: &mut Files) {
    let mut random = Random::new(20_240_302);
    sound_loads(files, &mut random);
    edge_values(files, &mut random);
    damaged(files, &mut random);
}

/// A random load under random names, a third of them empty.
fn random_load(random: &mut Random, flows: usize, blocks: usize) -> LoadFile {
    let shape = loads::any_shape(random, flows, blocks);
    let load = loads::make(random, &shape);
    let names: Vec<Vec<u8>> = (0..flows).map(|_| random_files::name(random)).collect();
    LoadFile::of(&load, &names)
}

fn sound_loads(files: &mut Files, random: &mut Random) {
    for (place, blocks) in [1, 2, 3, 4, 6, 9, 14, 20, 30, 60].into_iter().enumerate() {
        for flows in [1 + place % 3, 4 + place, 64] {
            let file = random_load(random, flows, blocks);
            files.sound(&format!("random-{}-of-{}", blocks, flows), &file);
        }
    }
    for blocks in [200, 700] {
        let flows = random.between(5, 64);
        let file = random_load(random, flows, blocks);
        files.sound(&format!("random-{}-of-{}", blocks, flows), &file);
    }
}

fn edge_values(files: &mut Files, random: &mut Random) {
    for place in 1..=10 {
        let file = random_files::edge_values(random);
        files.open(&format!("edge-values-{}", place), file.bytes());
    }
}

/// One to three bytes changed; a length word that fits, since 2 would hide the rest; cut short.
fn damaged(files: &mut Files, random: &mut Random) {
    for place in 1..=20 {
        let mut bytes = random_load(random, 3, 8).bytes();
        for _ in 0..random.between(1, 3) {
            random_files::change_a_byte(random, &mut bytes);
        }
        files.open(&format!("damaged-{}", place), bytes);
    }
    for place in 1..=5 {
        let mut bytes = random_load(random, 3, 8).bytes();
        bytes.truncate(random.between(10, bytes.len() - 1));
        fit_length_word(&mut bytes);
        files.open(&format!("damaged-by-a-cut-{}", place), bytes);
    }
}
