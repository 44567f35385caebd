//! A whole plan as its rows show it, turn by turn. The checks of plans and the search for loads
//! look at it; nothing of it comes from the planner.

use std::collections::HashSet;

use crate::build::plan_load::PlanLoad;
use crate::rules::row::Row;

pub struct Turns<'a> {
    pub load: &'a PlanLoad,
    pub rows: &'a [Row],
    pub all: Vec<Turn<'a>>,
}

pub struct Turn<'a> {
    /// At least one.
    pub rows: &'a [Row],
    /// The rows of all later turns. The plan is whole, so every block that hasn't started when
    /// the turn ends stands there.
    pub later: &'a [Row],
    /// The turn of the same flow before this one, by its place.
    pub previous: Option<usize>,
    /// When stage 1 is free, no other turn is under way and some flow waits.
    pub ready: u64,
    /// Whether a block of the flow is still waiting when the turn ends.
    pub stays: bool,
}

impl Turn<'_> {
    pub fn flow(&self) -> u64 {
        self.first().flow
    }

    pub fn round(&self) -> u64 {
        self.first().round
    }

    pub fn first(&self) -> &Row {
        &self.rows[0]
    }

    pub fn last(&self) -> &Row {
        &self.rows[self.rows.len() - 1]
    }

    /// The tick at which the turn ends: its last block's finish at stage 1.
    pub fn end(&self) -> u64 {
        self.last().spans[0].finish
    }

    pub fn hold(&self) -> u64 {
        self.first().hold
    }

    /// The balance when the turn ends.
    pub fn balance_left(&self) -> i64 {
        self.last().balance as i64 - self.last().dominant_time() as i64
    }

    /// The balance with its sign turned where a block is still waiting, otherwise 0.
    pub fn excess(&self) -> i64 {
        if self.stays {
            -self.balance_left()
        } else {
            0
        }
    }
}

impl<'a> Turns<'a> {
    /// The rows of a plan that lists all blocks of the load.
    pub fn of(load: &'a PlanLoad, rows: &'a [Row]) -> Turns<'a> {
        let mut turns = Turns {
            load,
            rows,
            all: Vec::new(),
        };
        let mut from = 0;
        while from < rows.len() {
            let turn = turns.turn_from(from);
            from += turn.rows.len();
            turns.all.push(turn);
        }
        turns
    }

    /// The turn whose first row is at this place; the turns above it are known.
    fn turn_from(&self, from: usize) -> Turn<'a> {
        let rest = &self.rows[from..];
        let (number, flow) = (rest[0].turn, rest[0].flow);
        let length = rest.iter().take_while(|row| row.turn == number).count();
        let (rows, later) = rest.split_at(length);
        let stage_free = self.all.last().map_or(0, |turn| turn.end());
        let some_flow_waits = rest.iter().map(|row| self.arrival(row)).min().unwrap_or(0);
        let end = rows[length - 1].spans[0].finish;
        Turn {
            rows,
            later,
            previous: self.all.iter().rposition(|turn| turn.flow() == flow),
            ready: stage_free.max(some_flow_waits),
            stays: self.waits(later, flow, end),
        }
    }

    pub fn arrival(&self, row: &Row) -> u64 {
        u64::from(self.load.blocks[row.block as usize].arrival)
    }

    /// Whether a block of the flow among these rows, which haven't started, has arrived.
    pub fn waits(&self, to_come: &[Row], flow: u64, tick: u64) -> bool {
        let mut own = to_come.iter().filter(|row| row.flow == flow);
        own.any(|row| self.arrival(row) <= tick)
    }

    /// The flows that wait at the ready tick of a turn, its own too.
    pub fn waiting(&self, turn: &Turn) -> HashSet<u64> {
        let to_come = turn.rows.iter().chain(turn.later);
        let arrived = to_come.filter(|row| self.arrival(row) <= turn.ready);
        arrived.map(|row| row.flow).collect()
    }

    /// The turn of the same flow before this one.
    pub fn previous(&self, turn: &Turn) -> Option<&Turn<'a>> {
        turn.previous.map(|place| &self.all[place])
    }

    /// Whether the flow had a turn before and then left the list.
    pub fn returns(&self, turn: &Turn) -> bool {
        let previous = self.previous(turn);
        previous.map_or(false, |previous| !previous.stays)
    }

    pub fn of_round(&self, round: u64) -> impl Iterator<Item = &Turn<'a>> + '_ {
        self.all.iter().filter(move |turn| turn.round() == round)
    }

    /// The largest excess left by a turn of the round before.
    pub fn credit(&self, round: u64) -> i64 {
        let before = self.of_round(round - 1).map(|turn| turn.excess());
        before.max().unwrap_or(0)
    }

    /// The place of the load's last stage in an array of stages.
    pub fn last_stage(&self) -> usize {
        self.load.stages - 1
    }
}
