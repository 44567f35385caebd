//! Document 01's examples E1 to E11 and its boundary examples, as cases of the plan call.

use crate::build::examples;
use crate::build::plan_load::{PlanLoad, ALL};
use crate::cases::Cases;

pub fn add(cases: &mut Cases) {
    examples(cases);
    no_blocks(cases);
    arrival_at_the_limit(cases);
    time_at_the_limit(cases);
    too_many(cases);
}

/// Every example under every limit that matters; E10 is E2 with n = 2 and n = 0.
fn examples(cases: &mut Cases) {
    for (_, load) in &examples::all() {
        for limit in 0..=load.blocks.len() as u64 + 1 {
            cases.plan(&load.ask(limit), 0);
        }
        cases.plan(&load.ask(512), 0);
        cases.plan(&load.ask(ALL), 0);
    }
}

/// E1 with each stage count and some flows, in tables that aren't empty: the flows' records are
/// set to 0 and no row is written.
fn no_blocks(cases: &mut Cases) {
    for stages in 1..=4 {
        for flows in [0, 1, 5, 64] {
            let mut case = PlanLoad::new(stages, flows).ask(ALL);
            cases.plan(&case, 0);
            case.records += 2;
            case.row_words = 16;
            case.table = vec![9; 7];
            cases.plan(&case, 0);
        }
    }
}

/// Arrival 1,000,000,000 and one more, with each stage count.
fn arrival_at_the_limit(cases: &mut Cases) {
    for stages in 1..=4 {
        for (arrival, number) in [(999_999_999, 0), (1_000_000_000, 0), (1_000_000_001, 9)] {
            let load = PlanLoad::new(stages, 1).block(0, arrival, &vec![1; stages]);
            cases.plan(&load.ask(ALL), number);
        }
    }
}

/// Time 10,000,000 and one more, at all stages and at each alone.
fn time_at_the_limit(cases: &mut Cases) {
    for stages in 1..=4 {
        for (time, number) in [(9_999_999, 0), (10_000_000, 0), (10_000_001, 9)] {
            let load = PlanLoad::new(stages, 1).block(0, 5, &vec![time; stages]);
            cases.plan(&load.ask(ALL), number);
            for stage in 0..stages {
                let mut times = vec![1; stages];
                times[stage] = time;
                let load = PlanLoad::new(stages, 1).block(0, 5, &times);
                cases.plan(&load.ask(1), number);
            }
        }
    }
}

/// 65 flows, and 1,025 blocks in tables that would be long enough. 64 and 1,024 are accepted in
/// the full loads.
fn too_many(cases: &mut Cases) {
    for (flows, number) in [(63, 0), (64, 0), (65, 4)] {
        let load = PlanLoad::new(2, flows).block(62, 0, &[1, 2]);
        cases.plan(&load.ask(ALL), number);
    }
    let mut load = PlanLoad::new(1, 64);
    for place in 0..1_025 {
        load.push(place % 64, place, &[1]);
    }
    cases.plan(&load.ask(ALL), 4);
}
