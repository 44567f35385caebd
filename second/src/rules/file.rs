//! Document 01's load file, version 1: header, flow records, block records, and the refusal
//! numbers in the order in which the reader and the soundness call test them.

use std::ops::Range;

/// A number of document 01's refusal table, 1 to 11.
pub type Refusal = u32;

pub const NOT_VERSION_1: Refusal = 1;
pub const WRONG_LENGTH: Refusal = 2;
pub const STAGE_COUNT: Refusal = 3;
pub const TOO_MANY: Refusal = 4;
pub const RECORD: Refusal = 5;
pub const NAME_BYTE: Refusal = 6;
pub const TABLE_SHORT: Refusal = 7;
pub const NO_SUCH_FLOW: Refusal = 8;
pub const ABOVE_LIMIT: Refusal = 9;
pub const NO_TIME: Refusal = 10;
pub const OUT_OF_ORDER: Refusal = 11;

pub const MOST_STAGES: usize = 4;
pub const MOST_FLOWS: usize = 64;
pub const MOST_BLOCKS: usize = 1_024;
pub const LAST_ARRIVAL: u32 = 1_000_000_000;
pub const LONGEST_TIME: u32 = 10_000_000;
pub const LONGEST_NAME: usize = 31;

/// Bytes before the first record.
const HEADER_BYTES: usize = 10;
/// Bytes up to and with the length word, which counts the bytes after itself.
const COUNTED_FROM: usize = 5;
/// Words of a block in memory: flow, arrival, four times.
pub const BLOCK_WORDS: usize = 6;

/// A block in memory.
#[derive(Clone, Copy, Debug, PartialEq, Eq)]
pub struct Block {
    pub flow: u32,
    pub arrival: u32,
    /// Times of stages that the load lacks are 0.
    pub times: [u32; MOST_STAGES],
}

impl Block {
    pub fn words(&self) -> [u32; BLOCK_WORDS] {
        let [one, two, three, four] = self.times;
        [self.flow, self.arrival, one, two, three, four]
    }

    pub fn read(words: &[u32]) -> Block {
        Block {
            flow: words[0],
            arrival: words[1],
            times: [words[2], words[3], words[4], words[5]],
        }
    }
}

/// The counts of the header.
#[derive(Clone, Copy, Debug, PartialEq, Eq)]
pub struct Counts {
    pub stages: usize,
    pub flows: usize,
    pub blocks: usize,
}

/// All that a sound file holds.
pub struct Load {
    pub counts: Counts,
    /// For each flow the place of its name in the file, without the length byte.
    pub names: Vec<Range<usize>>,
    pub blocks: Vec<Block>,
}

/// The soundness call: a number only, 0 if the file is sound.
pub fn soundness(file: &[u8]) -> Refusal {
    match load(file, None) {
        Ok(_) => 0,
        Err(number) => number,
    }
}

/// The reader: the counts and the blocks in the lent table, or a number and the table as before.
pub fn reader(file: &[u8], table: &mut [u32]) -> Result<Counts, Refusal> {
    let load = load(file, Some(table.len()))?;
    // Only now is it certain that nothing will be refused, so only now is the table touched.
    for (block, words) in load.blocks.iter().zip(table.chunks_mut(BLOCK_WORDS)) {
        words.copy_from_slice(&block.words());
    }
    Ok(load.counts)
}

/// The tests of both calls in their order. `room` is the words of the lent table; the soundness
/// call has no table and so omits test 7.
pub fn load(file: &[u8], room: Option<usize>) -> Result<Load, Refusal> {
    let counts = header(file)?;
    if let Some(words) = room {
        if words < BLOCK_WORDS * counts.blocks {
            return Err(TABLE_SHORT);
        }
    }
    let mut at = HEADER_BYTES;
    let mut names = Vec::new();
    for _ in 0..counts.flows {
        let length = flow_record(&file[at..])?;
        names.push(at + 1..at + 1 + length);
        at += 1 + length;
    }
    let mut blocks: Vec<Block> = Vec::new();
    for _ in 0..counts.blocks {
        let block = block_record(&file[at..], counts.stages)?;
        judge_block(&block, &counts, blocks.last())?;
        blocks.push(block);
        at += 1 + block_length(counts.stages);
    }
    if at < file.len() {
        return Err(RECORD);
    }
    Ok(Load {
        counts,
        names,
        blocks,
    })
}

/// Tests 1 to 4.
fn header(file: &[u8]) -> Result<Counts, Refusal> {
    if file.first() != Some(&1) {
        return Err(NOT_VERSION_1);
    }
    // The size is tested before the length word is looked at: shorter files need not have one.
    if file.len() < HEADER_BYTES || word_at(file, 1) as usize != file.len() - COUNTED_FROM {
        return Err(WRONG_LENGTH);
    }
    let counts = Counts {
        stages: usize::from(file[5]),
        flows: usize::from(half_at(file, 6)),
        blocks: usize::from(half_at(file, 8)),
    };
    if counts.stages < 1 || counts.stages > MOST_STAGES {
        return Err(STAGE_COUNT);
    }
    if counts.flows > MOST_FLOWS || counts.blocks > MOST_BLOCKS {
        return Err(TOO_MANY);
    }
    Ok(counts)
}

/// Tests 5 and 6 of a flow. `rest` is the file from the record's length byte on. Gives the length
/// of the name.
fn flow_record(rest: &[u8]) -> Result<usize, Refusal> {
    let length = usize::from(*rest.first().ok_or(RECORD)?);
    if length > LONGEST_NAME || rest.len() < 1 + length {
        return Err(RECORD);
    }
    if rest[1..1 + length]
        .iter()
        .any(|byte| !(33..=126).contains(byte))
    {
        return Err(NAME_BYTE);
    }
    Ok(length)
}

/// What the length byte of a block has to be.
fn block_length(stages: usize) -> usize {
    6 + 4 * stages
}

/// Test 5 of a block. `rest` is the file from the record's length byte on.
fn block_record(rest: &[u8], stages: usize) -> Result<Block, Refusal> {
    let length = usize::from(*rest.first().ok_or(RECORD)?);
    if length != block_length(stages) || rest.len() < 1 + length {
        return Err(RECORD);
    }
    let mut times = [0; MOST_STAGES];
    for (stage, time) in times.iter_mut().enumerate().take(stages) {
        *time = word_at(rest, 7 + 4 * stage);
    }
    Ok(Block {
        flow: u32::from(half_at(rest, 1)),
        arrival: word_at(rest, 3),
        times,
    })
}

/// Tests 8 to 11 of a block; `above` is the block before it in the table, if there is one.
pub fn judge_block(block: &Block, counts: &Counts, above: Option<&Block>) -> Result<(), Refusal> {
    if block.flow as usize >= counts.flows {
        return Err(NO_SUCH_FLOW);
    }
    // A file has no place for times of lacking stages, but a table of blocks has.
    let lacking = block.times[counts.stages..].iter().any(|&time| time > 0);
    let too_long = block.times.iter().any(|&time| time > LONGEST_TIME);
    if block.arrival > LAST_ARRIVAL || too_long || lacking {
        return Err(ABOVE_LIMIT);
    }
    if block.times.iter().all(|&time| time == 0) {
        return Err(NO_TIME);
    }
    match above {
        Some(above) if block.arrival < above.arrival => Err(OUT_OF_ORDER),
        _ => Ok(()),
    }
}

/// Two bytes, the higher first.
fn half_at(bytes: &[u8], at: usize) -> u16 {
    u16::from_be_bytes([bytes[at], bytes[at + 1]])
}

/// Four bytes, the highest first.
fn word_at(bytes: &[u8], at: usize) -> u32 {
    u32::from_be_bytes([bytes[at], bytes[at + 1], bytes[at + 2], bytes[at + 3]])
}
