//! Loads whose blocks arrive at the very ticks at which something happens in their plan, and one
//! tick before and after: decisions at a tick come after its arrivals.

use crate::build::loads::{block_times, Arrivals, Owners, Shape, Times};
use crate::build::plan_load::{PlanLoad, ALL};
use crate::build::random::Random;
use crate::cases::Cases;

pub fn add(cases: &mut Cases) {
    let mut random = Random::new(20_240_104);
    for blocks in [2, 3, 4, 4, 4, 6, 9] {
        for stages in 1..=4 {
            for times in [Times::Tiny, Times::Zeros, Times::LongLast, Times::Ties] {
                for offset in [-1, 0, 0, 0, 1] {
                    let shape = Shape {
                        stages,
                        flows: random.between(1, 3),
                        blocks,
                        arrivals: Arrivals::AtOnce,
                        times,
                        owners: Owners::Mixed,
                    };
                    cases.plan(&grow(&mut random, &shape, offset).ask(ALL), 0);
                }
            }
        }
    }
}

/// Each block arrives so many ticks after a tick at which, in the plan of the blocks above it,
/// a block finishes stage 1 or starts or finishes at the last stage. What happens before an
/// arrival doesn't depend on it, so the ticks still occur in the plan of the whole load.
fn grow(random: &mut Random, shape: &Shape, offset: i64) -> PlanLoad {
    let mut load = PlanLoad::new(shape.stages, shape.flows);
    for _ in 0..shape.blocks {
        let above = load.blocks.last().map_or(0, |block| block.arrival);
        let ticks = ticks_from(&load, u64::from(above));
        let mut arrival = above;
        // Now and then blocks arrive together, so that some of them wait.
        if !ticks.is_empty() && !random.once_in(4) {
            let tick = ticks[random.below(ticks.len().min(5))];
            arrival = (tick as i64 + offset).max(i64::from(above)) as u32;
        }
        let flow = random.below(shape.flows);
        load.push(flow as u32, arrival, &block_times(random, shape, flow));
    }
    load
}

/// The ticks of a load's plan at which stage 1 is free again, or a hold can end, or a turn is
/// finished, from a tick on and in order.
fn ticks_from(load: &PlanLoad, first: u64) -> Vec<u64> {
    let mut ticks = Vec::new();
    for row in load.rows() {
        let last = row.spans[load.stages - 1];
        ticks.extend([row.spans[0].finish, last.start, last.finish]);
    }
    ticks.retain(|&tick| tick >= first);
    ticks.sort_unstable();
    ticks.dedup();
    ticks
}
