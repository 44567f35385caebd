//! What document 01 demands of the rows, records and counts of a whole plan, checked on the rows
//! alone. Nothing here knows how the planner works.

use std::collections::HashSet;

use crate::build::plan_load::PlanLoad;
use crate::checks::turns::{Turn, Turns};
use crate::rules::row::{FlowRecord, PlanCounts, Row, Span};

/// What a check answers: nothing more, or what is wrong.
pub type Outcome = Result<(), String>;

pub fn require(good: bool, what: &str, row: &Row) -> Outcome {
    if good {
        return Ok(());
    }
    Err(format!("{} (block {}, turn {})", what, row.block, row.turn))
}

/// All checks of rows. The numbering comes first, since the other checks go turn by turn.
pub fn rows(load: &PlanLoad, rows: &[Row]) -> Outcome {
    blocks_once(load, rows)?;
    dominant_stages(load, rows)?;
    stages(load, rows)?;
    numbering(rows)?;
    let turns = Turns::of(load, rows);
    for turn in &turns.all {
        first_start(&turns, turn)?;
        further_starts(&turns, turn)?;
        balances(&turns, turn)?;
    }
    round_lengths(&turns)?;
    order_of_joining(&turns)
}

/// Every block has one row, with its own flow, and those of a flow stand in the table's order.
fn blocks_once(load: &PlanLoad, rows: &[Row]) -> Outcome {
    let mut last_of_flow = vec![None; load.flows];
    let mut seen = HashSet::new();
    for row in rows {
        let block = load.blocks.get(row.block as usize);
        let own = block.map_or(false, |block| u64::from(block.flow) == row.flow);
        require(own, "a row isn't of the block's flow", row)?;
        require(seen.insert(row.block), "a block has two rows", row)?;
        let last = &mut last_of_flow[row.flow as usize];
        require(*last < Some(row.block), "an older block waits", row)?;
        *last = Some(row.block);
    }
    if seen.len() != load.blocks.len() {
        return Err("a block has no row".to_string());
    }
    Ok(())
}

/// The dominant stage has the largest time, and no stage after it has the same.
fn dominant_stages(load: &PlanLoad, rows: &[Row]) -> Outcome {
    for row in rows {
        let times = &load.blocks[row.block as usize].times;
        let largest = times.iter().max();
        let highest = times.iter().rposition(|time| Some(time) == largest);
        let stage = highest.map(|place| place as u64 + 1);
        require(stage == Some(row.dominant_stage), "dominant stage", row)?;
    }
    Ok(())
}

/// Finish is start plus time; a later stage starts at the greater of two finishes; stage 1 is free
/// at each start; stages that the load lacks have zeros.
fn stages(load: &PlanLoad, rows: &[Row]) -> Outcome {
    let mut before = [Span::default(); 4];
    for row in rows {
        let block = &load.blocks[row.block as usize];
        let free = row.spans[0].start >= before[0].finish;
        require(free, "stage 1 isn't free", row)?;
        for (stage, span) in row.spans.iter().enumerate() {
            let time = u64::from(block.times[stage]);
            require(span.finish == span.start + time, "finish", row)?;
            if stage >= load.stages {
                require(*span == Span::default(), "a stage too many", row)?;
            } else if stage > 0 {
                let start = row.spans[stage - 1].finish.max(before[stage].finish);
                require(span.start == start, "start at a later stage", row)?;
            }
        }
        before = row.spans;
    }
    Ok(())
}

/// Turns and rounds go from 1 without gaps. A turn is of one flow and one round.
fn numbering(rows: &[Row]) -> Outcome {
    let mut before: Option<&Row> = None;
    for row in rows {
        let (round, turn) = before.map_or((0, 0), |before| (before.round, before.turn));
        let same = before.map_or(false, |before| {
            (before.flow, before.round, before.turn) == (row.flow, row.round, row.turn)
        });
        // The first row's turn and round are new ones.
        let next_round = row.round == round + 1 || (round > 0 && row.round == round);
        let next = row.turn == turn + 1 && next_round;
        require(same || next, "numbering", row)?;
        before = Some(row);
    }
    Ok(())
}

/// A turn's first block starts at the ready tick, or when the first block of the flow's previous
/// turn starts at the last stage, if that is later; the difference is the hold.
fn first_start(turns: &Turns, turn: &Turn) -> Outcome {
    let first = turn.first();
    let previous = turns.previous(turn);
    let last_stage = turns.last_stage();
    let gate = previous.map_or(0, |turn| turn.first().spans[last_stage].start);
    let start = first.spans[0].start;
    require(start == turn.ready.max(gate), "start of a turn", first)?;
    require(first.hold == start - turn.ready, "hold", first)?;
    require(turns.arrival(first) <= turn.ready, "not arrived", first)
}

/// Every other block starts when the one before it finishes at stage 1, and isn't held.
fn further_starts(turns: &Turns, turn: &Turn) -> Outcome {
    for pair in turn.rows.windows(2) {
        let (before, row) = (&pair[0], &pair[1]);
        let start = row.spans[0].start;
        require(start == before.spans[0].finish, "pause in a turn", row)?;
        require(turns.arrival(row) <= start, "not arrived", row)?;
        require(row.hold == 0, "hold within a turn", row)?;
    }
    Ok(())
}

/// The first balance is the credit minus the flow's excess, each further one is less by a dominant
/// time, none is below 0, and a turn ends only below 0 or for want of a block.
fn balances(turns: &Turns, turn: &Turn) -> Outcome {
    let first = turn.first();
    let excess = turns.previous(turn).map_or(0, |turn| turn.excess());
    let balance = turns.credit(turn.round()) - excess;
    require(first.balance as i64 == balance, "first balance", first)?;
    for pair in turn.rows.windows(2) {
        let left = pair[0].balance as i64 - pair[0].dominant_time() as i64;
        require(pair[1].balance as i64 == left, "balance", &pair[1])?;
    }
    let over = turn.rows.iter().any(|row| (row.balance as i64) < 0);
    require(!over, "balance below 0", first)?;
    let ends = turn.balance_left() < 0 || !turn.stays;
    require(ends, "a turn ends early", turn.last())
}

/// A round gives a turn to each flow that waits when it opens, and to no other.
fn round_lengths(turns: &Turns) -> Outcome {
    let rounds = turns.rows.last().map_or(0, |row| row.round);
    for round in 1..=rounds {
        let flows: Vec<u64> = turns.of_round(round).map(|turn| turn.flow()).collect();
        let opening = turns.of_round(round).next();
        let opening = opening.ok_or_else(|| format!("round {} has no turn", round))?;
        let waiting = turns.waiting(opening);
        let same = flows.len() == waiting.len() && waiting == flows.into_iter().collect();
        require(same, "flows of a round", opening.first())?;
    }
    Ok(())
}

/// Turns come in the order in which the flows joined the list: by tick, at one tick first those
/// whose blocks arrive, in the order of the blocks, and then those whose turns end.
fn order_of_joining(turns: &Turns) -> Outcome {
    let mut before = (0, 0, 0);
    for (place, turn) in turns.all.iter().enumerate() {
        let first = turn.first();
        let joined = match turns.previous(turn) {
            Some(previous) if previous.stays => (previous.end(), 1, previous.first().turn),
            _ => (turns.arrival(first), 0, first.block),
        };
        require(place == 0 || before < joined, "order of joining", first)?;
        before = joined;
    }
    Ok(())
}

/// The counts and the records say what the rows say.
pub fn counts(rows: &[Row], stages: usize, counts: &PlanCounts, records: &[FlowRecord]) -> Outcome {
    let distinct = |number: fn(&Row) -> u64| {
        let numbers: HashSet<u64> = rows.iter().map(number).collect();
        numbers.len() as u64
    };
    let counted = PlanCounts {
        blocks: rows.len() as u64,
        turns: distinct(|row| row.turn),
        rounds: distinct(|row| row.round),
        turns_held: rows.iter().filter(|row| row.hold > 0).count() as u64,
        held_ticks: rows.iter().map(|row| row.hold).sum(),
        end: rows.last().map_or(0, |row| row.spans[stages - 1].finish),
    };
    if *counts != counted {
        return Err(format!("counts {:?}, not {:?}", counts, counted));
    }
    for (flow, record) in records.iter().enumerate() {
        let own: Vec<&Row> = rows.iter().filter(|row| row.flow == flow as u64).collect();
        let turns: HashSet<u64> = own.iter().map(|row| row.turn).collect();
        let times: u64 = own.iter().map(|row| row.dominant_time()).sum();
        if *record != [own.len() as u64, turns.len() as u64, times] {
            return Err(format!("record of flow {}", flow));
        }
    }
    Ok(())
}
