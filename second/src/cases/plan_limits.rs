//! The limit of the plan call: every limit of many small loads, and limits beyond all blocks.

use crate::build::loads;
use crate::build::plan_load::PlanLoad;
use crate::build::random::Random;
use crate::cases::Cases;

pub fn add(cases: &mut Cases) {
    let mut random = Random::new(20_240_102);
    every_limit(cases, &mut random);
    huge_limits(cases, &mut random);
    limit_within_a_turn(cases);
}

/// Loads of one to six blocks under each limit from 0 to one more than the blocks, in a row table
/// that is exactly long enough for the limit.
fn every_limit(cases: &mut Cases, random: &mut Random) {
    for place in 0..144 {
        let blocks = 1 + place % 6;
        let load = loads::lively(random, blocks);
        for limit in 0..=blocks as u64 + 1 {
            cases.plan(&load.ask(limit), 0);
        }
    }
}

/// Limits that would be small, or take no room, if only some of their bits counted or if 15 times
/// the limit went round.
const HUGE_LIMITS: [u64; 10] = [
    1 << 16,
    1 << 32,
    (1 << 32) + 1,
    1 << 60,
    0x1111_1111_1111_1111,
    0x1111_1111_1111_1112,
    (1 << 63) - 1,
    1 << 63,
    u64::MAX - 1,
    u64::MAX,
];

fn huge_limits(cases: &mut Cases, random: &mut Random) {
    for blocks in 0..=4 {
        for &limit in &HUGE_LIMITS {
            let case = loads::lively(random, blocks).ask(limit);
            cases.plan(&case, 0);
            if blocks > 0 {
                let mut short = case;
                short.row_words -= 1;
                cases.plan(&short, 7);
            }
        }
    }
}

/// Flow 1 comes into a round whose credit lasts for five of its blocks: its turn is cut at each of
/// them, and counts as one all the same.
fn limit_within_a_turn(cases: &mut Cases) {
    let mut load = PlanLoad::new(2, 2).block(0, 0, &[9, 2]);
    for flow in [1, 0, 1, 1, 1, 1, 1] {
        load.push(flow, 1, &[1, 2]);
    }
    for limit in 0..=9 {
        cases.plan(&load.ask(limit), 0);
    }
}
