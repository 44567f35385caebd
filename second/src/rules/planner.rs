//! How a plan is made: document 01's rounds, turns and holds, one start after the other.

use std::collections::VecDeque;
use std::slice::ChunksExactMut;

use crate::rules::file::{Block, MOST_FLOWS};
use crate::rules::row::{Row, ROW_WORDS};
use crate::rules::stages::{dominant_stage, Stages};
use crate::rules::waiting::Waiting;

pub struct Planner<'a> {
    blocks: &'a [Block],
    waiting: Waiting<'a>,
    stages: Stages,
    /// The waiting flows, the head first.
    list: VecDeque<usize>,
    flows: Vec<Flow>,
    round: Round,
    /// The turns begun so far.
    turns: u64,
    /// The tick of the next decision.
    clock: u64,
}

#[derive(Clone, Default)]
struct Flow {
    /// Listed, held or in its turn.
    present: bool,
    excess: u64,
    /// When the first block of its previous turn starts at the last stage. The first turn is held
    /// by nothing, which is tick 0.
    held_until: u64,
}

/// The round that is under way, or used up.
#[derive(Default)]
struct Round {
    number: u64,
    /// Flows that are still to be taken in it.
    left: usize,
    credit: u64,
    /// The largest excess that a turn of it has left so far.
    largest_excess: u64,
}

/// The free rows of the lent table, the next one first.
type FreeRows<'t> = ChunksExactMut<'t, u64>;

/// Fills the whole table with the rows of the first blocks started; there are at least as many
/// blocks as the table has rows.
pub fn fill(blocks: &[Block], stages: usize, flows: usize, table: &mut [u64]) {
    let mut planner = Planner {
        blocks,
        waiting: Waiting::new(blocks, flows),
        stages: Stages::new(stages),
        list: VecDeque::with_capacity(MOST_FLOWS),
        flows: vec![Flow::default(); flows],
        round: Round::default(),
        turns: 0,
        clock: 0,
    };
    let mut rows = table.chunks_exact_mut(ROW_WORDS);
    while rows.len() > 0 {
        planner.take_arrivals();
        if planner.list.is_empty() {
            // All that arrived has started; a row is free, so there is a block still to come.
            planner.clock = planner.waiting.next_arrival();
        } else {
            planner.serve_head(&mut rows);
        }
    }
}

impl Planner<'_> {
    /// Flows join the list in the order of their blocks. Called whenever the clock has moved, and
    /// so before any decision at its tick.
    fn take_arrivals(&mut self) {
        while let Some(flow) = self.waiting.take_arrival(self.clock) {
            if !self.flows[flow].present {
                self.flows[flow].present = true;
                self.list.push_back(flow);
            }
        }
    }

    /// The clock is at the ready tick: takes the head of the list, holds it and gives it its turn.
    fn serve_head(&mut self, rows: &mut FreeRows) {
        let ready = self.clock;
        if self.round.left == 0 {
            self.open_round();
        }
        self.round.left -= 1;
        let flow = self.list.pop_front().expect("the list isn't empty");
        self.clock = ready.max(self.flows[flow].held_until);
        self.take_arrivals();
        let hold = self.clock - ready;
        if let Some(balance) = self.take_turn(flow, hold, rows) {
            self.end_turn(flow, balance);
        }
    }

    /// The largest excess starts anew with each round, so an older one is never credited.
    fn open_round(&mut self) {
        self.round = Round {
            number: self.round.number + 1,
            left: self.list.len(),
            credit: self.round.largest_excess,
            largest_excess: 0,
        };
    }

    /// Starts blocks of the flow from now on, while the balance is 0 or more and one has arrived.
    /// Answers the balance at the turn's end; none where the rows end before.
    fn take_turn(&mut self, flow: usize, hold: u64, rows: &mut FreeRows) -> Option<i64> {
        self.turns += 1;
        // No excess is above the credit of the round in which the flow is next served.
        let mut balance = self.round.credit as i64 - self.flows[flow].excess as i64;
        let mut first = true;
        while balance >= 0 && self.waiting.has_block(flow) {
            let words = rows.next()?;
            let mut row = self.start_block(flow, balance as u64);
            if first {
                row.hold = hold;
                self.flows[flow].held_until = row.spans[self.stages.last()].start;
                first = false;
            }
            words.copy_from_slice(&row.words());
            balance -= row.dominant_time() as i64;
            self.clock = row.spans[0].finish;
            self.take_arrivals();
        }
        Some(balance)
    }

    /// Starts the flow's oldest block now.
    fn start_block(&mut self, flow: usize, balance: u64) -> Row {
        let place = self.waiting.take_oldest(flow);
        let block = &self.blocks[place];
        Row {
            block: place as u64,
            flow: flow as u64,
            round: self.round.number,
            turn: self.turns,
            balance,
            hold: 0,
            dominant_stage: dominant_stage(block),
            spans: self.stages.pass(block, self.clock),
        }
    }

    /// Flows that arrived at this tick are in the list already and stand before this one.
    fn end_turn(&mut self, flow: usize, balance: i64) {
        let stays = self.waiting.has_block(flow);
        // A turn that ends with a block still waiting has a balance below 0.
        let excess = if stays { -balance as u64 } else { 0 };
        self.round.largest_excess = self.round.largest_excess.max(excess);
        self.flows[flow].excess = excess;
        self.flows[flow].present = stays;
        if stays {
            self.list.push_back(flow);
        }
    }
}
