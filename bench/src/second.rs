//! The plan call of the second program, which second/ has as it stands. It is clear and not tight.

use crate::call::{Asked, Counts, Record};
use crate::rules::plan;

pub fn plan(asked: &Asked, records: &mut [Record], rows: &mut [u64], counts: &mut Counts) -> u64 {
    let same = plan::Asked {
        limit: asked.limit,
        stages: asked.stages as u64,
        flows: asked.flows as u64,
        blocks: asked.blocks as u64,
    };
    match plan::plan(&same, asked.table, records, rows) {
        Ok(found) => {
            *counts = found.words();
            0
        }
        Err(number) => {
            *counts = [0; 6];
            u64::from(number)
        }
    }
}
