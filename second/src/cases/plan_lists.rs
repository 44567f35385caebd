//! Long lists and lists that flows leave and join often: all flows wait or all but one, blocks come
//! while their flow waits, and a flow leaves and joins a hundred times. A block takes one tick at
//! each stage unless something else is said, so that a turn has one block.

use crate::build::plan_load::{PlanLoad, ALL};
use crate::cases::Cases;
use crate::rules::file::MOST_FLOWS;

/// How often the flow of `alone` and of `beside_others` leaves the list and joins it again.
pub const RETURNS: usize = 100;

pub fn add(cases: &mut Cases) {
    let mut loads = vec![by_turns(1, MOST_FLOWS, 16)];
    for stages in 2..=4 {
        loads.push(by_turns(stages, MOST_FLOWS, 4));
    }
    loads.push(by_turns(1, MOST_FLOWS - 1, 4));
    loads.push(one_comes_and_goes());
    loads.push(while_they_wait());
    for stages in [1, 3] {
        loads.push(alone(stages));
    }
    for others in [1, 3] {
        loads.push(beside_others(others));
    }
    for load in loads {
        cases.plan(&load.ask(ALL), 0);
    }
}

/// So many flows of the most that a load can have wait from the beginning, and rejoin after each
/// turn but their last.
fn by_turns(stages: usize, flows: usize, each: usize) -> PlanLoad {
    let mut load = PlanLoad::new(stages, MOST_FLOWS);
    for place in 0..flows * each {
        load.push((place % flows) as u32, 0, &vec![1; stages]);
    }
    load
}

/// All but one wait, and in each second round that one waits too.
fn one_comes_and_goes() -> PlanLoad {
    let mut load = by_turns(1, MOST_FLOWS - 1, 5);
    for tick in [1, 129, 257] {
        load.push(MOST_FLOWS as u32 - 1, tick, &[1]);
    }
    load
}

/// Two blocks come at each second tick, most of them for flows that wait already.
fn while_they_wait() -> PlanLoad {
    let mut load = PlanLoad::new(2, MOST_FLOWS);
    for place in 0..320 {
        let flow = 27 * place % MOST_FLOWS as u32;
        load.push(flow, place / 2 * 2, &[2, 1 + flow % 3]);
    }
    load
}

/// Each block comes when the one before it has been sent.
fn alone(stages: usize) -> PlanLoad {
    let mut load = PlanLoad::new(stages, 1);
    for place in 0..=RETURNS {
        load.push(0, ((stages + 1) * place) as u32, &vec![1; stages]);
    }
    load
}

/// So many others always wait, and each block of the first flow comes after the turn of the one
/// before it.
fn beside_others(others: usize) -> PlanLoad {
    let mut load = PlanLoad::new(1, others + 1);
    load.push(0, 0, &[1]);
    for place in 0..RETURNS * (others + 1) {
        load.push((1 + place % others) as u32, 0, &[1]);
    }
    for place in 1..=RETURNS {
        load.push(0, ((others + 2) * place) as u32, &[1]);
    }
    load
}
