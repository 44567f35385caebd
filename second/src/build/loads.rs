//! Random sound loads for plans: when blocks arrive, whose they are and how long they take.

use crate::build::plan_load::PlanLoad;
use crate::build::random::Random;
use crate::rules::file::{LAST_ARRIVAL, LONGEST_TIME};

#[derive(Clone, Copy)]
pub enum Arrivals {
    AtOnce,
    /// So far apart that flows run empty and the planner is idle now and then.
    Spread,
    /// So close together that the list grows.
    Crowded,
    /// Several at one tick, then a pause.
    Bursts,
    /// The last ticks at which a block may arrive.
    Late,
}

#[derive(Clone, Copy)]
pub enum Times {
    Tiny,
    Small,
    /// The largest time stands at several stages.
    Ties,
    /// Most times are 0, also those of whole stages.
    Zeros,
    /// Short at first and long at the last stage, so that flows are held.
    LongLast,
    /// Each flow has a dominant stage of its own.
    StageOfFlow,
    /// 0, the largest time and one less.
    Largest,
    Any,
}

#[derive(Clone, Copy)]
pub enum Owners {
    Mixed,
    ByTurns,
    /// Half of the blocks are of one flow.
    OneGreedy,
    /// A few blocks of one flow after each other.
    Runs,
}

pub const ALL_ARRIVALS: [Arrivals; 5] = [
    Arrivals::AtOnce,
    Arrivals::Spread,
    Arrivals::Crowded,
    Arrivals::Bursts,
    Arrivals::Late,
];

pub const ALL_TIMES: [Times; 8] = [
    Times::Tiny,
    Times::Small,
    Times::Ties,
    Times::Zeros,
    Times::LongLast,
    Times::StageOfFlow,
    Times::Largest,
    Times::Any,
];

pub const ALL_OWNERS: [Owners; 4] = [
    Owners::Mixed,
    Owners::ByTurns,
    Owners::OneGreedy,
    Owners::Runs,
];

/// The times under which the most happens in a small load.
const LIVELY_TIMES: [Times; 5] = [
    Times::Tiny,
    Times::Ties,
    Times::Zeros,
    Times::LongLast,
    Times::StageOfFlow,
];

#[derive(Clone, Copy)]
pub struct Shape {
    pub stages: usize,
    pub flows: usize,
    pub blocks: usize,
    pub arrivals: Arrivals,
    pub times: Times,
    pub owners: Owners,
}

/// A load of this shape.
pub fn make(random: &mut Random, shape: &Shape) -> PlanLoad {
    let mut load = PlanLoad::new(shape.stages, shape.flows);
    let mut arrival = match shape.arrivals {
        Arrivals::Late => LAST_ARRIVAL - 40,
        _ => random.below(3) as u32,
    };
    let mut flow = 0;
    for place in 0..shape.blocks {
        flow = next_owner(random, shape, place, flow);
        load.push(flow as u32, arrival, &block_times(random, shape, flow));
        arrival = (arrival + pause(random, shape)).min(LAST_ARRIVAL);
    }
    load
}

/// A random shape of so many blocks.
pub fn any_shape(random: &mut Random, flows: usize, blocks: usize) -> Shape {
    Shape {
        stages: random.between(1, 4),
        flows,
        blocks,
        arrivals: random.pick(&ALL_ARRIVALS),
        times: random.pick(&ALL_TIMES),
        owners: random.pick(&ALL_OWNERS),
    }
}

/// A load of up to four flows in which much happens, of any number of stages.
pub fn lively(random: &mut Random, blocks: usize) -> PlanLoad {
    let shape = Shape {
        stages: random.between(1, 4),
        flows: random.between(1, 4),
        blocks,
        arrivals: random.pick(&ALL_ARRIVALS),
        times: random.pick(&LIVELY_TIMES),
        owners: random.pick(&ALL_OWNERS),
    };
    make(random, &shape)
}

/// A load of blocks that arrive last and take longest, of so many flows by turns.
pub fn largest(stages: usize, flows: usize, blocks: usize) -> PlanLoad {
    let mut load = PlanLoad::new(stages, flows);
    for place in 0..blocks {
        let flow = (place % flows) as u32;
        load.push(flow, LAST_ARRIVAL, &vec![LONGEST_TIME; stages]);
    }
    load
}

/// As many flows and blocks as a load can have.
pub fn full_shape(stages: usize, arrivals: Arrivals, times: Times, owners: Owners) -> Shape {
    Shape {
        stages,
        flows: 64,
        blocks: 1_024,
        arrivals,
        times,
        owners,
    }
}

/// Loads of 1,024 blocks and 64 flows, each of another shape.
pub fn full() -> Vec<PlanLoad> {
    let mut random = Random::new(20_240_106);
    let mut loads = vec![largest(4, 64, 1_024), largest(1, 64, 1_024)];
    for (place, arrivals) in ALL_ARRIVALS.into_iter().enumerate() {
        for turn in 0..4 {
            let kind = 4 * place + turn;
            let times = ALL_TIMES[(kind + kind / 8) % 8];
            let owners = ALL_OWNERS[(turn + place) % 4];
            let shape = full_shape(4 - (kind + place) % 4, arrivals, times, owners);
            loads.push(make(&mut random, &shape));
        }
    }
    loads
}

fn next_owner(random: &mut Random, shape: &Shape, place: usize, before: usize) -> usize {
    match shape.owners {
        Owners::Mixed => random.below(shape.flows),
        Owners::ByTurns => place % shape.flows,
        Owners::OneGreedy if random.once_in(2) => shape.flows / 2,
        Owners::OneGreedy => random.below(shape.flows),
        Owners::Runs if random.once_in(3) => random.below(shape.flows),
        Owners::Runs => before,
    }
}

/// The ticks to the next arrival, in proportion to the times. Pauses of long loads are cut so
/// that not all late blocks arrive at the last tick.
fn pause(random: &mut Random, shape: &Shape) -> u32 {
    let typical = match shape.times {
        Times::Tiny | Times::Zeros => 3,
        Times::Ties | Times::LongLast => 8,
        Times::Small | Times::StageOfFlow => 20,
        Times::Largest | Times::Any => LONGEST_TIME / 2,
    };
    let usual = typical.min(LAST_ARRIVAL / shape.blocks as u32) as usize;
    let ticks = match shape.arrivals {
        Arrivals::AtOnce => 0,
        Arrivals::Spread => random.below(4 * usual),
        Arrivals::Crowded => random.below(usual / 2 + 2),
        Arrivals::Bursts if random.once_in(4) => random.below(8 * usual),
        Arrivals::Bursts => 0,
        Arrivals::Late => random.below(12),
    };
    ticks as u32
}

/// One time for each stage, at least one of them above 0.
pub fn block_times(random: &mut Random, shape: &Shape, flow: usize) -> Vec<u32> {
    let top = random.between(1, 9) as u32;
    let mut times = Vec::new();
    for stage in 0..shape.stages {
        times.push(match shape.times {
            Times::Tiny => random.below(4) as u32,
            Times::Small => random.below(40) as u32,
            Times::Ties if random.once_in(2) => top,
            Times::Ties => random.below(top as usize) as u32,
            Times::Zeros if random.once_in(3) => top,
            Times::Zeros => 0,
            Times::LongLast if stage + 1 == shape.stages => random.between(4, 12) as u32,
            Times::LongLast => random.below(3) as u32,
            Times::StageOfFlow if stage == flow % shape.stages => random.between(10, 30) as u32,
            Times::StageOfFlow => random.below(5) as u32,
            Times::Largest => random.pick(&[0, LONGEST_TIME - 1, LONGEST_TIME]),
            Times::Any => random.below(LONGEST_TIME as usize + 1) as u32,
        });
    }
    if times.iter().all(|&time| time == 0) {
        let stage = random.below(shape.stages);
        times[stage] = top;
    }
    times
}
