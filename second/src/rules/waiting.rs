//! The blocks of a load as they arrive, and the oldest one of each flow that hasn't started.

use crate::rules::file::Block;

pub struct Waiting<'a> {
    blocks: &'a [Block],
    /// The blocks in the table above this place have arrived.
    arrived: usize,
    /// For each flow its first block in the table that hasn't started; the block count if none.
    oldest: Vec<usize>,
    /// For each block the next one of the same flow; the block count if none.
    next: Vec<usize>,
}

impl<'a> Waiting<'a> {
    /// The table is in order of arrival, so a flow's blocks are linked in the table's order.
    pub fn new(blocks: &'a [Block], flows: usize) -> Waiting<'a> {
        let mut oldest = vec![blocks.len(); flows];
        let mut next = vec![blocks.len(); blocks.len()];
        for (place, block) in blocks.iter().enumerate().rev() {
            let flow = block.flow as usize;
            next[place] = oldest[flow];
            oldest[flow] = place;
        }
        Waiting {
            blocks,
            arrived: 0,
            oldest,
            next,
        }
    }

    /// The flow of the next block that arrives up to a tick, if there is one.
    pub fn take_arrival(&mut self, tick: u64) -> Option<usize> {
        let block = self.blocks.get(self.arrived)?;
        if u64::from(block.arrival) > tick {
            return None;
        }
        self.arrived += 1;
        Some(block.flow as usize)
    }

    /// When the next block arrives; asked only where one is still to come.
    pub fn next_arrival(&self) -> u64 {
        u64::from(self.blocks[self.arrived].arrival)
    }

    /// Whether a block of the flow has arrived and hasn't started.
    pub fn has_block(&self, flow: usize) -> bool {
        self.oldest[flow] < self.arrived
    }

    /// Takes the flow's oldest block, by its place in the table.
    pub fn take_oldest(&mut self, flow: usize) -> usize {
        let place = self.oldest[flow];
        self.oldest[flow] = self.next[place];
        place
    }
}
