//! A plan call: what is asked, the tables that are lent, and the programs that answer it.
//! examples/xarbulest.h says what each word is.

pub const MOST_STAGES: usize = 4;
pub const MOST_FLOWS: usize = 64;
pub const MOST_BLOCKS: usize = 1_024;
pub const LAST_ARRIVAL: u32 = 1_000_000_000;
pub const LONGEST_TIME: u32 = 10_000_000;

/// The words of a block and of a row.
pub const BLOCK_WORDS: usize = 6;
pub const ROW_WORDS: usize = 15;

#[derive(Clone, Copy)]
pub struct Asked<'a> {
    pub stages: usize,
    pub flows: usize,
    pub blocks: usize,
    pub limit: u64,
    pub table: &'a [u32],
}

impl Asked<'_> {
    /// The rows of the plan, if there is one.
    pub fn listed(&self) -> usize {
        self.limit.min(self.blocks as u64) as usize
    }
}

/// The counts and the block table of a load.
pub struct Load {
    pub stages: usize,
    pub flows: usize,
    pub blocks: usize,
    pub table: Vec<u32>,
}

impl Load {
    /// Asks for the plan of the first `limit` blocks started.
    pub fn ask(&self, limit: u64) -> Asked<'_> {
        Asked {
            stages: self.stages,
            flows: self.flows,
            blocks: self.blocks,
            limit,
            table: &self.table,
        }
    }
}

pub type Record = [u64; 3];
pub type Counts = [u64; 6];

/// A plan call. It answers with the refusal's number, 0 for a plan.
pub type Plan = fn(&Asked, &mut [Record], &mut [u64], &mut Counts) -> u64;

pub struct Program {
    pub name: &'static str,
    pub plan: Plan,
}
