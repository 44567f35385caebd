//! The way of the blocks through the stages, and a block's dominant stage.

use crate::rules::file::{Block, MOST_STAGES};
use crate::rules::row::Span;

/// Every stage takes the blocks in the order in which stage 1 took them, so all that is to be
/// remembered of a stage is when it finishes the block before.
pub struct Stages {
    count: usize,
    free_from: [u64; MOST_STAGES],
}

impl Stages {
    pub fn new(count: usize) -> Stages {
        Stages {
            count,
            free_from: [0; MOST_STAGES],
        }
    }

    /// The spans of the next block, which starts at stage 1 at a tick at which that stage is free.
    pub fn pass(&mut self, block: &Block, start: u64) -> [Span; MOST_STAGES] {
        let mut spans = [Span::default(); MOST_STAGES];
        let mut ready = start;
        for (stage, span) in spans.iter_mut().enumerate().take(self.count) {
            span.start = ready.max(self.free_from[stage]);
            span.finish = span.start + u64::from(block.times[stage]);
            self.free_from[stage] = span.finish;
            ready = span.finish;
        }
        spans
    }

    /// The place of the last stage in an array of stages.
    pub fn last(&self) -> usize {
        self.count - 1
    }
}

/// The dominant stage, from 1: the one with the largest time, of several the highest numbered
/// (T-01). Stages that the load lacks have time 0 and never win, since some time is above 0.
pub fn dominant_stage(block: &Block) -> u64 {
    let mut dominant = 0;
    for stage in 1..MOST_STAGES {
        if block.times[stage] >= block.times[dominant] {
            dominant = stage;
        }
    }
    dominant as u64 + 1
}
