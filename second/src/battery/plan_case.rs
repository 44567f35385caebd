//! A case of the plan call, and how it stands in the case file: the parameters in the part that
//! the name call uses for the standing list, the block table in the part for the file.

use crate::battery::case::{Call, Case, MOST_WORDS};
use crate::rules::plan::Asked;

/// The bytes of the parameters.
const PARAMETER_BYTES: usize = 40;
/// The most flow records and row words that a case can lend.
pub const MOST_RECORDS: u32 = 128;
pub const MOST_ROW_WORDS: u32 = 16_384;

#[derive(Clone, Debug, PartialEq, Eq)]
pub struct PlanCase {
    pub asked: Asked,
    /// The flow records lent.
    pub records: u32,
    /// The row words lent.
    pub row_words: u32,
    /// The block table lent.
    pub table: Vec<u32>,
}

impl PlanCase {
    /// The same with another number of flow records lent.
    pub fn with_records(&self, records: u32) -> PlanCase {
        let mut changed = self.clone();
        changed.records = records;
        changed
    }

    /// The same with another number of row words lent.
    pub fn with_row_words(&self, row_words: u32) -> PlanCase {
        let mut changed = self.clone();
        changed.row_words = row_words;
        changed
    }

    /// The same with a block table of so many words; words beyond the blocks are such as no block
    /// may have.
    pub fn with_table_words(&self, words: usize) -> PlanCase {
        let mut changed = self.clone();
        changed.table.resize(words, u32::MAX);
        changed
    }

    /// The case as it stands in the case file.
    pub fn case(&self) -> Case {
        let asked = &self.asked;
        let mut parameters = Vec::with_capacity(PARAMETER_BYTES);
        for number in [asked.limit, asked.stages, asked.flows, asked.blocks] {
            parameters.extend_from_slice(&number.to_be_bytes());
        }
        for number in [self.records, self.row_words] {
            parameters.extend_from_slice(&number.to_be_bytes());
        }
        Case {
            call: Call::Plan,
            number: 0,
            standing: parameters,
            file: self.table.iter().flat_map(|w| w.to_be_bytes()).collect(),
        }
    }

    /// The plan call of a case, or why the case isn't one.
    pub fn of(case: &Case) -> Result<PlanCase, String> {
        if case.call != Call::Plan || case.standing.len() != PARAMETER_BYTES {
            return Err("a plan case has 40 bytes of parameters".to_string());
        }
        if case.file.len() % 4 != 0 {
            return Err("a block table has whole words".to_string());
        }
        let parameters = words(&case.standing);
        // The first four numbers take two words each, the higher first.
        let long = |place: usize| {
            u64::from(parameters[2 * place]) << 32 | u64::from(parameters[2 * place + 1])
        };
        let plan = PlanCase {
            asked: Asked {
                limit: long(0),
                stages: long(1),
                flows: long(2),
                blocks: long(3),
            },
            records: parameters[8],
            row_words: parameters[9],
            table: words(&case.file),
        };
        plan.judge_room()?;
        Ok(plan)
    }

    fn judge_room(&self) -> Result<(), String> {
        if self.records > MOST_RECORDS {
            return Err("at most 128 flow records are lent".to_string());
        }
        if self.row_words > MOST_ROW_WORDS {
            return Err("at most 16,384 row words are lent".to_string());
        }
        if self.table.len() as u32 > MOST_WORDS {
            return Err("a block table has at most 8,192 words".to_string());
        }
        Ok(())
    }
}

fn words(bytes: &[u8]) -> Vec<u32> {
    bytes
        .chunks_exact(4)
        .map(|b| u32::from_be_bytes([b[0], b[1], b[2], b[3]]))
        .collect()
}
