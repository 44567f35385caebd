//! The planner as compiled: the plan call of examples/xarbulest.h.

use crate::call::{Asked, Counts, Record};

extern "C" {
    fn xarbulest_plan(
        stages: usize,
        flows: usize,
        blocks: usize,
        limit: u64,
        table: *const u32,
        table_length: usize,
        records: *mut Record,
        records_length: usize,
        rows: *mut u64,
        rows_length: usize,
        counts: *mut Counts,
    ) -> u64;
}

pub fn plan(asked: &Asked, records: &mut [Record], rows: &mut [u64], counts: &mut Counts) -> u64 {
    // The header's terms are kept: slices have their memory behind them, and those that are written
    // overlap nothing.
    unsafe {
        xarbulest_plan(
            asked.stages,
            asked.flows,
            asked.blocks,
            asked.limit,
            asked.table.as_ptr(),
            asked.table.len(),
            records.as_mut_ptr(),
            records.len(),
            rows.as_mut_ptr(),
            rows.len(),
            counts,
        )
    }
}
