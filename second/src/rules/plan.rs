//! The plan call: its tests in document 01's order, then the rows, flow records and counts.

use crate::rules::file::{
    judge_block, Block, Counts, Refusal, BLOCK_WORDS, MOST_BLOCKS, MOST_FLOWS, MOST_STAGES,
    STAGE_COUNT, TABLE_SHORT, TOO_MANY,
};
use crate::rules::planner;
use crate::rules::row::{self, FlowRecord, PlanCounts, ROW_WORDS};

/// What the caller says of the load and how many blocks are to be listed at most.
#[derive(Clone, Copy, Debug, PartialEq, Eq)]
pub struct Asked {
    pub limit: u64,
    pub stages: u64,
    pub flows: u64,
    pub blocks: u64,
}

/// The counts, with rows and flow records in the lent tables, or a number and the tables as before.
pub fn plan(
    asked: &Asked,
    table: &[u32],
    records: &mut [FlowRecord],
    rows: &mut [u64],
) -> Result<PlanCounts, Refusal> {
    let counts = judge_counts(asked)?;
    // The block count is at most 1,024, and with it the number of rows, whatever the limit.
    let listed = asked.limit.min(asked.blocks) as usize;
    let short = table.len() < BLOCK_WORDS * counts.blocks
        || records.len() < counts.flows
        || rows.len() < ROW_WORDS * listed;
    if short {
        return Err(TABLE_SHORT);
    }
    let blocks = judge_blocks(table, &counts)?;
    // Only now is it certain that nothing will be refused. Room beyond these parts is left alone.
    let rows = &mut rows[..ROW_WORDS * listed];
    planner::fill(&blocks, counts.stages, counts.flows, rows);
    row::set_records(rows, &mut records[..counts.flows]);
    Ok(PlanCounts::of(rows, counts.stages))
}

/// Tests 3 and 4, by comparisons alone: the counts can be any 64-bit numbers.
fn judge_counts(asked: &Asked) -> Result<Counts, Refusal> {
    if asked.stages < 1 || asked.stages > MOST_STAGES as u64 {
        return Err(STAGE_COUNT);
    }
    if asked.flows > MOST_FLOWS as u64 || asked.blocks > MOST_BLOCKS as u64 {
        return Err(TOO_MANY);
    }
    Ok(Counts {
        stages: asked.stages as usize,
        flows: asked.flows as usize,
        blocks: asked.blocks as usize,
    })
}

/// Tests 8 to 11, block by block, also of blocks that a limit keeps from being listed.
fn judge_blocks(table: &[u32], counts: &Counts) -> Result<Vec<Block>, Refusal> {
    let mut blocks: Vec<Block> = Vec::with_capacity(counts.blocks);
    for words in table.chunks_exact(BLOCK_WORDS).take(counts.blocks) {
        let block = Block::read(words);
        judge_block(&block, counts, blocks.last())?;
        blocks.push(block);
    }
    Ok(blocks)
}
