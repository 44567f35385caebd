//! Small calls with chance in every part: sound loads with many ties, damaged ones, counts above
//! their limits, tables that are too short or have room to spare, and limits of all sizes.

use crate::call::{
    Load, BLOCK_WORDS, LAST_ARRIVAL, LONGEST_TIME, MOST_BLOCKS, MOST_FLOWS, MOST_STAGES, ROW_WORDS,
};
use crate::random::Random;

pub struct Call {
    pub load: Load,
    pub limit: u64,
    /// How many flow records and row words are lent.
    pub records: usize,
    pub rows: usize,
}

pub fn small(random: &mut Random) -> Call {
    let (stages, flows) = (random.between(1, 4), random.between(1, 5));
    let blocks = random.between(0, 14) as usize;
    let mut table = sound(random, stages as usize, flows, blocks);
    for _ in 0..random.pick(&[0, 0, 0, 1, 2]) {
        damage(random, &mut table, stages as usize, flows);
    }
    table.resize(room(random, table.len()), 0);
    let any = u64::from(random.between(0, 15));
    let limit = random.pick(&[u64::MAX, blocks as u64, any]);
    let listed = limit.min(blocks as u64) as usize;
    Call {
        load: Load {
            stages: beyond(random, stages as usize, &[0, MOST_STAGES + 1, usize::MAX]),
            flows: beyond(random, flows as usize, &[0, MOST_FLOWS + 1, usize::MAX]),
            blocks: beyond(random, blocks, &[MOST_BLOCKS + 1, usize::MAX]),
            table,
        },
        limit,
        records: room(random, flows as usize),
        rows: room(random, ROW_WORDS * listed),
    }
}

/// Blocks of a few ticks at a time, and now and then at the last tick or as long as can be.
fn sound(random: &mut Random, stages: usize, flows: u32, blocks: usize) -> Vec<u32> {
    let mut table = Vec::new();
    let mut arrival = random.pick(&[0, 0, 0, LAST_ARRIVAL - 9]);
    let longest = random.pick(&[1, 2, 5, LONGEST_TIME]);
    for _ in 0..blocks {
        let mut times = [0; MOST_STAGES];
        for time in &mut times[..stages] {
            let any = random.between(0, longest);
            *time = random.pick(&[0, longest, any]);
        }
        if times == [0; MOST_STAGES] {
            times[random.between(0, stages as u32 - 1) as usize] = longest;
        }
        table.extend([random.between(0, flows - 1), arrival]);
        table.extend(times);
        let any = random.between(0, 9);
        arrival = LAST_ARRIVAL.min(arrival + random.pick(&[0, 0, 1, any]));
    }
    table
}

/// Makes a block of the table unsound, in a way that is given a number from 8 to 11.
fn damage(random: &mut Random, table: &mut [u32], stages: usize, flows: u32) {
    let blocks = table.len() / BLOCK_WORDS;
    if blocks == 0 {
        return;
    }
    let at = BLOCK_WORDS * random.between(0, blocks as u32 - 1) as usize;
    let block = &mut table[at..at + BLOCK_WORDS];
    match random.between(0, 5) {
        0 => block[0] = random.pick(&[flows, flows + 1, MOST_FLOWS as u32, u32::MAX]),
        1 => block[1] = random.pick(&[LAST_ARRIVAL + 1, u32::MAX]),
        2 => block[2 + random.between(0, 3) as usize] = random.pick(&[LONGEST_TIME + 1, u32::MAX]),
        // A stage that the load lacks, if it lacks one.
        3 => block[2 + stages % MOST_STAGES..].fill(1),
        4 => block[2..].fill(0),
        _ => block[1] = block[1].saturating_sub(random.between(1, 9)),
    }
}

/// Mostly just as much as is needed, else a little less or more.
fn room(random: &mut Random, needed: usize) -> usize {
    match random.between(0, 19) {
        0 => needed.saturating_sub(1),
        1..=5 => needed + random.between(1, 40) as usize,
        _ => needed,
    }
}

/// Once in a while a count that does not belong to the table.
fn beyond(random: &mut Random, count: usize, others: &[usize]) -> usize {
    if random.once_in(30) {
        random.pick(others)
    } else {
        count
    }
}
