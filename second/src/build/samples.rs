//! Load files that several groups of cases and the tests share.

use crate::build::examples::e3;
use crate::build::load_file::LoadFile;

/// Three flows, one of them without a name of its own, three blocks, two stages: small enough to
/// be changed at every byte.
pub fn small_file() -> LoadFile {
    LoadFile::new(2)
        .flows(&["ab", "", "c"])
        .block(0, 3, &[1, 2])
        .block(2, 3, &[0, 258])
        .block(1, 770, &[5, 0])
}

/// The shortest sound file: one stage, no flows, no blocks.
pub fn ten_bytes() -> LoadFile {
    LoadFile::new(1)
}

/// Three flows with names and three blocks whose arrivals differ, for a number of stages.
pub fn three_blocks(stages: u8) -> LoadFile {
    let times: Vec<u32> = (1..=u32::from(stages)).collect();
    LoadFile::new(stages)
        .flows(&["ab", "cd", "ef"])
        .block(0, 10, &times)
        .block(1, 20, &times)
        .block(2, 30, &times)
}

/// The load file of E3 with the name A.
pub fn e3_file() -> LoadFile {
    LoadFile::of(&e3(), &[b"A".to_vec()])
}

/// As much as a load file can hold: 64 flows with names of 31 bytes and 1,024 blocks.
pub fn full_file(stages: u8) -> LoadFile {
    let mut file = LoadFile::new(stages);
    for flow in 0..64u32 {
        let name: Vec<u8> = (0..31).map(|i| (33 + (flow * 5 + i) % 94) as u8).collect();
        file = file.flow(&name);
    }
    for block in 0..1_024u32 {
        let times: Vec<u32> = (0..u32::from(stages)).map(|s| block * 4 + s + 1).collect();
        file = file.block((block * 7 % 64) as u16, block * 900_000, &times);
    }
    file
}
