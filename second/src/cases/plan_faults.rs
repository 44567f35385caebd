//! Refusals of the plan call: each number at the first, middle and last block, every pair of
//! faults for the order of the tests, and faults of blocks that a limit keeps from being listed.

use crate::battery::plan_case::PlanCase;
use crate::build::plan_load::{PlanLoad, ALL};
use crate::cases::Cases;

pub fn add(cases: &mut Cases) {
    stage_counts(cases);
    flow_numbers(cases);
    no_flows(cases);
    above_the_limits(cases);
    lacking_stages(cases);
    no_time(cases);
    one_time_is_enough(cases);
    out_of_order(cases);
    order_by_all_bytes(cases);
    pairs(cases);
    all_from_one_on(cases);
    faults_beyond_the_limit(cases);
}

/// Three flows and three blocks whose arrivals are 10, 20 and 30.
fn three_blocks(stages: usize) -> PlanCase {
    let times = vec![2; stages];
    let load = PlanLoad::new(stages, 3)
        .block(0, 10, &times)
        .block(1, 20, &times)
        .block(2, 30, &times);
    load.ask(ALL)
}

/// The case with one word of a block changed: 0 flow, 1 arrival, 2 to 5 times.
fn with_word(case: &PlanCase, block: usize, word: usize, value: u32) -> PlanCase {
    let mut changed = case.clone();
    changed.table[6 * block + word] = value;
    changed
}

/// 3, with blocks and without.
fn stage_counts(cases: &mut Cases) {
    for stages in [0, 5, 6, 8, 255, 256, 257, (1 << 32) + 1, 1 << 63, u64::MAX] {
        let mut case = three_blocks(4);
        case.asked.stages = stages;
        cases.plan(&case, 3);
        let mut case = PlanLoad::new(1, 0).ask(0);
        case.asked.stages = stages;
        cases.plan(&case, 3);
    }
}

/// 8: flow numbers from the flow count on. Those below are accepted.
fn flow_numbers(cases: &mut Cases) {
    for stages in 1..=4 {
        let case = three_blocks(stages);
        for block in 0..3 {
            for flow in [3, 4, 64, 256, 65_536, 0x8000_0000, u32::MAX] {
                cases.plan(&with_word(&case, block, 0, flow), 8);
            }
            for flow in 0..3 {
                cases.plan(&with_word(&case, block, 0, flow), 0);
            }
        }
    }
}

/// 8 where there are no flows at all, and on both sides of 64 flows.
fn no_flows(cases: &mut Cases) {
    for flow in [0, 1, u32::MAX] {
        let load = PlanLoad::new(1, 0).block(flow, 0, &[1]);
        cases.plan(&load.ask(ALL), 8);
        cases.plan(&load.ask(0), 8);
    }
    for (flow, number) in [(0, 0), (63, 0), (64, 8), (65, 8), (320, 8)] {
        let load = PlanLoad::new(1, 64).block(flow, 0, &[1]);
        cases.plan(&load.ask(ALL), number);
    }
}

/// 9 for the arrival and for each time; the limits themselves are accepted.
fn above_the_limits(cases: &mut Cases) {
    for stages in 1..=4 {
        let case = three_blocks(stages);
        for block in 0..3 {
            for arrival in [1_000_000_001, 0x8000_0000, u32::MAX] {
                cases.plan(&with_word(&case, block, 1, arrival), 9);
            }
            for stage in 0..stages {
                for (time, number) in [(10_000_000, 0), (10_000_001, 9), (u32::MAX, 9)] {
                    cases.plan(&with_word(&case, block, 2 + stage, time), number);
                }
            }
        }
    }
}

/// 9 for a time above 0 at a stage that the load lacks, also where it's the block's only time.
fn lacking_stages(cases: &mut Cases) {
    for stages in 1..4 {
        let case = three_blocks(stages);
        for block in 0..3 {
            for stage in stages..4 {
                for time in [1, 10_000_000, 10_000_001, u32::MAX] {
                    cases.plan(&with_word(&case, block, 2 + stage, time), 9);
                }
                let mut only = with_word(&case, block, 2 + stage, 1);
                only.table[6 * block + 2..][..stages].fill(0);
                cases.plan(&only, 9);
            }
        }
    }
}

/// 10 at each block of each stage count.
fn no_time(cases: &mut Cases) {
    for stages in 1..=4 {
        for block in 0..3 {
            let mut case = three_blocks(stages);
            case.table[6 * block + 2..][..4].fill(0);
            cases.plan(&case, 10);
        }
    }
}

/// A single time above 0 is enough, at whichever stage, in whichever byte of the word it shows.
fn one_time_is_enough(cases: &mut Cases) {
    for stages in 1..=4 {
        for stage in 0..stages {
            for time in [1, 256, 65_536] {
                let mut times = vec![0; stages];
                times[stage] = time;
                let load = PlanLoad::new(stages, 1).block(0, 7, &times);
                cases.plan(&load.ask(ALL), 0);
            }
        }
    }
}

/// 11: each block but the first arrives one tick, or much, before the one above it; an equal
/// arrival is accepted.
fn out_of_order(cases: &mut Cases) {
    for stages in 1..=4 {
        let case = three_blocks(stages);
        for block in 1..3 {
            let above = 10 * block as u32;
            for (arrival, number) in [(above - 1, 11), (0, 11), (above, 0), (above + 1, 0)] {
                cases.plan(&with_word(&case, block, 1, arrival), number);
            }
        }
        // The first block has none above it, so the second is the one that comes too early.
        cases.plan(&with_word(&case, 0, 1, 21), 11);
    }
}

/// 11 decided by each byte of the arrival: pairs beside the places where a byte is carried.
fn order_by_all_bytes(cases: &mut Cases) {
    for high in [1, 0x100, 0x1_0000, 0x100_0000, 1_000_000_000] {
        for (above, below, number) in [
            (high - 1, high, 0),
            (high, high - 1, 11),
            (high, high, 0),
            (high, 0, 11),
        ] {
            let load = PlanLoad::new(1, 2)
                .block(1, above, &[4])
                .block(0, below, &[4]);
            cases.plan(&load.ask(ALL), number);
        }
    }
}

/// A fault and, in brackets, the block that has it.
#[derive(Clone, Copy)]
enum Fault {
    StageCount,
    FlowCount,
    BlockCount,
    BlockTable,
    FlowTable,
    RowTable,
    FlowNumber(usize),
    Arrival(usize),
    Time(usize),
    LackingTime(usize),
    NoTime(usize),
    Before(usize),
}

use Fault::*;

/// All faults in the order in which document 01 has them tested.
fn in_order() -> Vec<Fault> {
    let mut all = vec![
        StageCount, FlowCount, BlockCount, BlockTable, FlowTable, RowTable,
    ];
    for block in 0..3 {
        all.extend([FlowNumber(block), Arrival(block)]);
        all.extend([Time(block), LackingTime(block), NoTime(block)]);
        if block > 0 {
            all.push(Before(block));
        }
    }
    all
}

/// The number of document 01's table for a fault.
fn number(fault: Fault) -> u32 {
    match fault {
        StageCount => 3,
        FlowCount | BlockCount => 4,
        BlockTable | FlowTable | RowTable => 7,
        FlowNumber(_) => 8,
        Arrival(_) | Time(_) | LackingTime(_) => 9,
        NoTime(_) => 10,
        Before(_) => 11,
    }
}

/// Puts a fault into the three blocks with two stages. It leaves the other faults in place, but
/// for one of the same block that uses the same word.
fn put(case: &mut PlanCase, fault: Fault) {
    match fault {
        StageCount => case.asked.stages = 5,
        FlowCount => case.asked.flows = 65,
        BlockCount => case.asked.blocks = 1_025,
        BlockTable => case.table.truncate(17),
        FlowTable => case.records = 2,
        RowTable => case.row_words = 44,
        FlowNumber(block) => case.table[6 * block] = 3,
        Arrival(block) => case.table[6 * block + 1] = 1_000_000_001,
        Time(block) => case.table[6 * block + 3] = 10_000_001,
        LackingTime(block) => case.table[6 * block + 4] = 1,
        NoTime(block) => case.table[6 * block + 2..][..2].fill(0),
        Before(block) => case.table[6 * block + 1] = 10 * block as u32 - 1,
    }
}

/// One block can't have a time above the limit and no time, nor arrive both above the limit and
/// before a block that is within it.
fn can_meet(one: Fault, other: Fault) -> bool {
    match (one, other) {
        (Time(a), NoTime(b)) | (Arrival(a), Before(b)) => a != b,
        _ => true,
    }
}

/// The faults are given in the order of the tests. They are put in from the last to the first, so
/// that the first stands where two use the same word. The first is the one to be found.
fn add_faults(cases: &mut Cases, faults: &[Fault]) {
    let mut case = three_blocks(2);
    for &fault in faults.iter().rev() {
        put(&mut case, fault);
    }
    cases.plan(&case, number(faults[0]));
}

/// Each fault alone, so that it's known to be one, and every two faults that can meet.
fn pairs(cases: &mut Cases) {
    let all = in_order();
    for (place, &first) in all.iter().enumerate() {
        add_faults(cases, &[first]);
        for &second in &all[place + 1..] {
            if can_meet(first, second) {
                add_faults(cases, &[first, second]);
            }
        }
    }
}

/// Each fault together with all later ones.
fn all_from_one_on(cases: &mut Cases) {
    let all = in_order();
    for place in 0..all.len() {
        add_faults(cases, &all[place..]);
    }
}

/// All blocks are tested, also under a limit of 0 and where the fault is in a block that the limit
/// wouldn't list; a fault beyond the block count is none.
fn faults_beyond_the_limit(cases: &mut Cases) {
    for fault in &in_order()[6..] {
        for limit in [0, 1, 2] {
            let mut case = three_blocks(2);
            case.asked.limit = limit;
            put(&mut case, *fault);
            cases.plan(&case, number(*fault));
        }
    }
    for fault in [FlowNumber(2), Time(2), LackingTime(2), NoTime(2), Before(2)] {
        let mut case = three_blocks(2);
        case.asked.blocks = 2;
        put(&mut case, fault);
        cases.plan(&case, 0);
    }
}
