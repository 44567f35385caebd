//! Random load files: sound ones, ones with values from both sides of the limits, and changed
//! bytes.

use crate::build::load_file::LoadFile;
use crate::build::random::Random;

/// A sound file of up to ten flows and twelve blocks.
pub fn sound(random: &mut Random) -> LoadFile {
    let stages = random.between(1, 4) as u8;
    let flows = random.between(0, 10);
    let blocks = if flows == 0 { 0 } else { random.between(0, 12) };
    let mut load = LoadFile::new(stages);
    for _ in 0..flows {
        load = load.flow(&name(random));
    }
    let (arrivals, times) = (random.below(3), random.below(4));
    let mut arrival = first_arrival(random, arrivals);
    for _ in 0..blocks {
        let flow = random.below(flows) as u16;
        load = load.block(flow, arrival, &block_times(random, times, stages));
        arrival = next_arrival(random, arrivals, arrival);
    }
    load
}

/// Records of the right shape whose fields are drawn from both sides of the limits, so that every
/// number from 8 to 11 comes up, alone and together.
pub fn edge_values(random: &mut Random) -> LoadFile {
    let mut load = sound(random);
    let flows = load.flows.len() as u16;
    for block in load.blocks.iter_mut() {
        if random.once_in(6) {
            block.flow = random.pick(&[0, flows - 1, flows, flows + 1, 65_535]);
        }
        if random.once_in(5) {
            block.arrival = random.pick(&[0, 7, 999_999_999, 1_000_000_000, 1_000_000_001]);
        }
        for time in block.times.iter_mut() {
            if random.once_in(4) {
                *time = random.pick(&[0, 0, 1, 10_000_000, 10_000_000, 10_000_001]);
            }
        }
    }
    if random.once_in(6) {
        load.left_over = vec![random.byte()];
    }
    load
}

/// Names of which a third is empty and a few have the most bytes.
pub fn name(random: &mut Random) -> Vec<u8> {
    let length = match random.below(12) {
        0..=3 => 0,
        4..=10 => random.between(1, 6),
        _ => 31,
    };
    (0..length).map(|_| random.between(33, 126) as u8).collect()
}

/// Kinds of arrivals: 0 spread, 1 all equal, 2 near the limit.
fn first_arrival(random: &mut Random, kind: usize) -> u32 {
    match kind {
        2 => 1_000_000_000 - random.below(60) as u32,
        _ => random.below(100) as u32,
    }
}

fn next_arrival(random: &mut Random, kind: usize, arrival: u32) -> u32 {
    match kind {
        0 => arrival + random.below(700) as u32,
        1 => arrival,
        _ => (arrival + random.below(10) as u32).min(1_000_000_000),
    }
}

/// Kinds of times: 0 very small, 1 small, 2 at the limit, 3 anywhere; at least one above 0.
fn block_times(random: &mut Random, kind: usize, stages: u8) -> Vec<u32> {
    let mut times = Vec::new();
    for _ in 0..stages {
        times.push(match kind {
            0 => random.below(3) as u32,
            1 => random.below(40) as u32,
            2 => random.pick(&[0, 9_999_999, 10_000_000]),
            _ => random.below(10_000_001) as u32,
        });
    }
    if times.iter().all(|&time| time == 0) {
        let stage = random.below(usize::from(stages));
        times[stage] = 1;
    }
    times
}

/// One byte becomes another: any, its neighbour, an end of the range, or one bit turned. Most
/// changes are made to the records, since the header has groups of its own.
pub fn change_a_byte(random: &mut Random, bytes: &mut [u8]) {
    let from = if bytes.len() > 10 && !random.once_in(4) {
        10
    } else {
        0
    };
    let place = random.between(from, bytes.len() - 1);
    let old = bytes[place];
    bytes[place] = match random.below(6) {
        0 => random.byte(),
        1 => old.wrapping_add(1),
        2 => old.wrapping_sub(1),
        3 => 0,
        4 => 255,
        _ => old ^ (1 << random.below(8)),
    };
}
