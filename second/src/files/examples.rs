//! Document 01's examples as files, and the files that it accepts or refuses by its limits.

use crate::build::examples;
use crate::build::load_file::LoadFile;
use crate::build::samples::{full_file, ten_bytes};
use crate::files::Files;

pub fn add(files: &mut Files) {
    planned_examples(files);
    accepted_by_a_limit(files);
    refused_by_a_limit(files);
}

/// E1 to E11, whose flows are named A, B, C; E3 is the file of 57 bytes.
fn planned_examples(files: &mut Files) {
    for (name, load) in examples::all() {
        let names: Vec<Vec<u8>> = (0..load.flows as u8)
            .map(|flow| vec![b'A' + flow])
            .collect();
        files.sound(&format!("example-{}", name), &LoadFile::of(&load, &names));
    }
}

fn one_block(arrival: u32, time: u32) -> LoadFile {
    LoadFile::new(1).flows(&["A"]).block(0, arrival, &[time])
}

fn named(length: usize) -> LoadFile {
    LoadFile::new(1).flow(&vec![b'n'; length]).block(0, 0, &[1])
}

fn accepted_by_a_limit(files: &mut Files) {
    files.sound("limit-ten-bytes", &ten_bytes());
    files.sound("limit-arrival", &one_block(1_000_000_000, 1));
    files.sound("limit-time", &one_block(0, 10_000_000));
    files.sound("limit-name-of-31-bytes", &named(31));
    files.sound("limit-64-flows-and-1024-blocks", &full_file(4));
}

fn refused_by_a_limit(files: &mut Files) {
    files.refused(9, "arrival", one_block(1_000_000_001, 1).bytes());
    files.refused(9, "time", one_block(0, 10_000_001).bytes());
    files.refused(5, "name-of-32-bytes", named(32).bytes());
    files.refused(4, "65-flows", full_file(4).flow(b"A").bytes());
    let more = full_file(4).block(0, 1_000_000_000, &[1, 1, 1, 1]);
    files.refused(4, "1025-blocks", more.bytes());
}
