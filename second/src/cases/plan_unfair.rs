//! Loads in which two flows that wait get services as different as is known, and as a short search
//! can make them, from random loads and near the bound; and source 000's figure 2, in which they
//! drift apart without end where no flow is held.

use crate::build::loads::{self, Arrivals, Owners, Shape, Times};
use crate::build::plan_load::{PlanLoad, ALL};
use crate::build::random::Random;
use crate::build::{unfair, unfair_found};
use crate::cases::Cases;
use crate::checks::services;
use crate::rules::file::Block;

/// The changes tried on one load.
const STEPS: usize = 1_500;
/// The largest time of these loads. The ratio counts, so a small number will do.
const LARGEST: u32 = 10;
/// The searches from each load near the bound.
const SEARCHES: usize = 3;

pub fn add(cases: &mut Cases) {
    figure_2(cases);
    known(cases);
    searched(cases);
    searched_near_the_bound(cases);
}

/// The loads that are known, and one of them cut at each of its blocks.
fn known(cases: &mut Cases) {
    for known in unfair::all() {
        cases.plan(&known.load.ask(ALL), 0);
    }
    let load = unfair::three_stages(LARGEST);
    for limit in 0..load.blocks.len() as u64 {
        cases.plan(&load.ask(limit), 0);
    }
}

fn searched(cases: &mut Cases) {
    let mut random = Random::new(20_240_107);
    for place in 0..20 {
        let shape = Shape {
            stages: 1 + place % 4,
            flows: 2 + place % 3,
            blocks: 12 + place,
            arrivals: Arrivals::Crowded,
            times: Times::Ties,
            owners: Owners::Mixed,
        };
        let load = loads::make(&mut random, &shape);
        let load = climb(&mut random, load);
        cases.plan(&load.ask(ALL), 0);
    }
}

/// Searches that begin where the difference is almost as large as the bound allows: at the known
/// loads of the largest time.
fn searched_near_the_bound(cases: &mut Cases) {
    let mut random = Random::new(20_240_108);
    for start in [unfair::three_stages(LARGEST), unfair_found::four_of_10()] {
        for _ in 0..SEARCHES {
            let load = climb(&mut random, start.clone());
            cases.plan(&load.ask(ALL), 0);
        }
    }
}

/// Times of 7 and 6.9 for one flow, 1 and 7 for the other, in tenths of a tick; with more stages
/// than the source's two, the others take no time.
fn figure_2(cases: &mut Cases) {
    for stages in 2..=4 {
        let mut load = PlanLoad::new(stages, 2);
        for _ in 0..30 {
            let mut times = vec![0; stages];
            for (flow, first, last) in [(0, 70, 69), (1, 10, 70)] {
                times[0] = first;
                times[stages - 1] = last;
                load.push(flow, 0, &times);
            }
        }
        cases.plan(&load.ask(ALL), 0);
    }
}

/// Changes a load step by step and keeps what makes the services differ no less. Steps on the level
/// are kept too, since the way up leads over them.
fn climb(random: &mut Random, mut load: PlanLoad) -> PlanLoad {
    let mut best = services::ratio_of(&load);
    for _ in 0..STEPS {
        let mut changed = load.clone();
        for _ in 0..random.between(1, 3) {
            change(random, &mut changed);
        }
        let ratio = services::ratio_of(&changed);
        if !best.above(&ratio) {
            best = ratio;
            load = changed;
        }
    }
    load
}

/// Another time at a stage, another flow, or an earlier or later arrival.
fn change(random: &mut Random, load: &mut PlanLoad) {
    let place = random.below(load.blocks.len());
    match random.below(3) {
        0 => {
            let stage = random.below(load.stages);
            let times = &mut load.blocks[place].times;
            times[stage] = random.pick(&[0, 1, LARGEST - 1, LARGEST]);
            if times.iter().all(|&time| time == 0) {
                times[stage] = 1;
            }
        }
        1 => load.blocks[place].flow = random.below(load.flows) as u32,
        _ => shift(random, &mut load.blocks, place),
    }
}

/// Moves a block and all after it by a few ticks, and not before the block above.
fn shift(random: &mut Random, blocks: &mut [Block], place: usize) {
    let above = place
        .checked_sub(1)
        .map_or(0, |above| blocks[above].arrival);
    let ticks = random.between(1, 12) as u32;
    let later = random.once_in(2);
    let earliest = above.max(blocks[place].arrival.saturating_sub(ticks));
    let earlier_by = blocks[place].arrival - earliest;
    for block in &mut blocks[place..] {
        if later {
            block.arrival += ticks;
        } else {
            block.arrival -= earlier_by;
        }
    }
}
