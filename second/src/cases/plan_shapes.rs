//! Loads of every shape, from a few blocks to as many as a load can have, and the largest numbers.

use crate::build::loads::{self, Arrivals, Owners, Shape, Times};
use crate::build::loads::{ALL_ARRIVALS, ALL_OWNERS, ALL_TIMES};
use crate::build::plan_load::ALL;
use crate::build::random::Random;
use crate::cases::Cases;
use crate::rules::file::LONGEST_TIME;

pub fn add(cases: &mut Cases) {
    let mut random = Random::new(20_240_105);
    small_loads(cases, &mut random);
    all_shapes(cases, &mut random);
    middle_loads(cases, &mut random);
    largest_numbers(cases);
    largest_ticks(cases);
    for load in loads::full() {
        cases.plan(&load.ask(ALL), 0);
    }
    full_loads_with_limits(cases, &mut random);
    full_loads_with_a_late_fault(cases, &mut random);
}

/// Loads of up to four blocks, whose rows are printed whole, with any number of flows.
fn small_loads(cases: &mut Cases, random: &mut Random) {
    for place in 0..240 {
        let flows = random.pick(&[1, 2, 2, 3, 3, 4, 20, 64]);
        let shape = loads::any_shape(random, flows, 1 + place % 4);
        cases.plan(&loads::make(random, &shape).ask(ALL), 0);
    }
}

/// Every stage count with every kind of arrivals and of times.
fn all_shapes(cases: &mut Cases, random: &mut Random) {
    for stages in 1..=4 {
        for arrivals in ALL_ARRIVALS {
            for times in ALL_TIMES {
                let shape = Shape {
                    stages,
                    flows: random.between(2, 6),
                    blocks: random.between(6, 20),
                    arrivals,
                    times,
                    owners: random.pick(&ALL_OWNERS),
                };
                cases.plan(&loads::make(random, &shape).ask(ALL), 0);
            }
        }
    }
}

fn middle_loads(cases: &mut Cases, random: &mut Random) {
    for _ in 0..40 {
        let (flows, blocks) = (random.between(2, 12), random.between(24, 60));
        let shape = loads::any_shape(random, flows, blocks);
        cases.plan(&loads::make(random, &shape).ask(ALL), 0);
    }
    for blocks in [100, 127, 200, 256, 300, 511, 512, 700] {
        let flows = random.between(5, 64);
        let shape = loads::any_shape(random, flows, blocks);
        cases.plan(&loads::make(random, &shape).ask(ALL), 0);
    }
}

/// The last arrival and the longest times, at all stages, at the first and at the last.
fn largest_numbers(cases: &mut Cases) {
    for stages in 1..=4 {
        for blocks in [1, 2, 4, 12] {
            for flows in [1, 2, 3] {
                let all = loads::largest(stages, flows, blocks);
                cases.plan(&all.ask(ALL), 0);
                let mut first = all.clone();
                let mut last = all;
                for place in 0..blocks {
                    first.blocks[place].times = [LONGEST_TIME, 0, 0, 0];
                    last.blocks[place].times = [0; 4];
                    last.blocks[place].times[stages - 1] = LONGEST_TIME;
                }
                cases.plan(&first.ask(ALL), 0);
                if stages > 1 {
                    cases.plan(&last.ask(ALL), 0);
                }
            }
        }
    }
}

/// Ticks that go beyond 32 bits, in the shorter loads only just. There is one flow, which with more
/// than two stages is held at each turn but its first; in the longest load the held ticks and its
/// sum of dominant times go beyond 32 bits too.
fn largest_ticks(cases: &mut Cases) {
    for (stages, blocks) in [(4, 112), (3, 167), (2, 331), (4, 1_024)] {
        let load = loads::largest(stages, 1, blocks);
        cases.plan(&load.ask(ALL), 0);
    }
}

fn full_loads_with_limits(cases: &mut Cases, random: &mut Random) {
    let shape = loads::full_shape(3, Arrivals::Crowded, Times::LongLast, Owners::Mixed);
    let load = loads::make(random, &shape);
    for limit in [4, 512, 1_023] {
        cases.plan(&load.ask(limit), 0);
    }
}

/// The tables have to be as before even where 1,023 blocks were good.
fn full_loads_with_a_late_fault(cases: &mut Cases, random: &mut Random) {
    let shape = loads::full_shape(2, Arrivals::Spread, Times::Small, Owners::ByTurns);
    let mut case = loads::make(random, &shape).ask(ALL);
    case.table[6 * 1_023 + 1] = 0;
    cases.plan(&case, 11);
    case.row_words -= 1;
    cases.plan(&case, 7);
}
