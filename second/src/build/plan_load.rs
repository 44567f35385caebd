//! A load as the plan call is asked to plan it, built from readable parts.

use crate::battery::plan_case::PlanCase;
use crate::rules::file::{Block, BLOCK_WORDS};
use crate::rules::plan::{self, Asked};
use crate::rules::row::{self, Row, ROW_WORDS};

/// A limit that no load reaches.
pub const ALL: u64 = u64::MAX;

#[derive(Clone, Debug)]
pub struct PlanLoad {
    pub stages: usize,
    pub flows: usize,
    pub blocks: Vec<Block>,
}

impl PlanLoad {
    pub fn new(stages: usize, flows: usize) -> PlanLoad {
        PlanLoad {
            stages,
            flows,
            blocks: Vec::new(),
        }
    }

    pub fn block(mut self, flow: u32, arrival: u32, times: &[u32]) -> PlanLoad {
        self.push(flow, arrival, times);
        self
    }

    /// The same block so many times.
    pub fn many(mut self, count: usize, flow: u32, arrival: u32, times: &[u32]) -> PlanLoad {
        for _ in 0..count {
            self.push(flow, arrival, times);
        }
        self
    }

    /// Adds a block; stages without a time get 0.
    pub fn push(&mut self, flow: u32, arrival: u32, times: &[u32]) {
        let mut all = [0; 4];
        all[..times.len()].copy_from_slice(times);
        self.blocks.push(Block {
            flow,
            arrival,
            times: all,
        });
    }

    /// A case that asks for the plan of this load, in tables that are exactly long enough.
    pub fn ask(&self, limit: u64) -> PlanCase {
        let blocks = self.blocks.len() as u64;
        PlanCase {
            asked: Asked {
                limit,
                stages: self.stages as u64,
                flows: self.flows as u64,
                blocks,
            },
            records: self.flows as u32,
            row_words: ROW_WORDS as u32 * limit.min(blocks) as u32,
            table: self.table(),
        }
    }

    /// The load that an accepted case asks about.
    pub fn of(case: &PlanCase) -> PlanLoad {
        let blocks = case.table.chunks_exact(BLOCK_WORDS).map(Block::read);
        PlanLoad {
            stages: case.asked.stages as usize,
            flows: case.asked.flows as usize,
            blocks: blocks.take(case.asked.blocks as usize).collect(),
        }
    }

    fn table(&self) -> Vec<u32> {
        self.blocks.iter().flat_map(Block::words).collect()
    }

    /// All rows of the plan. Only sound loads are built here, so the call isn't refused.
    pub fn rows(&self) -> Vec<Row> {
        let case = self.ask(ALL);
        let mut records = vec![[0; 3]; self.flows];
        let mut rows = vec![0; ROW_WORDS * self.blocks.len()];
        plan::plan(&case.asked, &case.table, &mut records, &mut rows).expect("a sound load");
        row::read_all(&rows).collect()
    }
}
