//! Loads in which two flows that both wait get services as different as is known. The rules keep
//! the difference within eight times the largest time L; the best of these loads stay below that by
//! 2 ticks, and by 4 for any L from 3 on. Here are those that have a rule; `unfair_found` has those
//! that a search found.
//!
//! Flow 0 gets more and flow 1 less; the other flows make credits and keep stages busy. Flow 0 has
//! two turns, A and B, that are begun before the first of the two ticks and served after it. Where
//! it leaves after a turn, it drops the L that it has spent beyond its credit: each then takes
//! twice L, and it comes back with nothing to make good.

use crate::build::plan_load::PlanLoad;
use crate::build::unfair_found as found;
use crate::rules::file::LONGEST_TIME;

/// The largest difference of two services is so many times L, less so many ticks. The self-tests
/// hold the plan to it.
pub struct Unfair {
    pub name: &'static str,
    pub load: PlanLoad,
    pub times: u64,
    pub less: u64,
}

pub fn all() -> Vec<Unfair> {
    let known = |name, load, times, less| Unfair {
        name,
        load,
        times,
        less,
    };
    let longest = LONGEST_TIME;
    vec![
        known("three stages of 10", three_stages(10), 8, 4),
        known("three longest stages", three_stages(longest), 8, 4),
        known("four longest stages", four_stages(longest), 8, 7),
        known("no leaving", no_leaving(1_000), 6, 5),
        known("four stages of 10", found::four_of_10(), 8, 2),
        known("four stages of 100", found::four_of_100(), 8, 2),
        known("four stages with ties", found::four_with_ties(), 8, 2),
        known("two stages of 50", found::two_of_50(), 7, 1),
        known("one stage of 50", found::one_of_50(), 3, 1),
        known("for weights 1 and 2", for_weights(1, 2), 8, 5_004),
        known("for weights 3 and 5", for_weights(3, 5), 4, 1),
        known("for weights 10 and 10", for_weights(10, 10), 4, 1),
    ]
}

/// All flows of round 3 leave, so round 4 has no credit. Flow 1 is alone in it: it spends L at
/// stage 1, while A's second block is at stage 2, and has an excess of L. That block takes as long
/// at stage 3, so it counts there. From tick 3 L up to 10 L + 1 flow 0 gets A but for a tick, B, and
/// 2 L, L and L in three later turns; flow 1 gets 3 ticks.
pub fn three_stages(l: u32) -> PlanLoad {
    let load = three_opening(4, l, 1).many(3, 1, 2 * l + 2, &[0, 0, l]);
    three_ending(load, l, 1, l)
}

/// A load for a flow 0 of weight `more` and a flow 1 of weight `less`, where `more` isn't above
/// `less`, and `less` divides L: its services are to differ as far as weights allow. Plans have no
/// weights yet, so here it is planned with weight 1 for every flow.
fn for_weights(more: u32, less: u32) -> PlanLoad {
    let l = 10_000;
    let credit = l / less;
    let load = three_opening(5, l, more).many(less as usize + 3, 1, 2 * l + 2, &[0, 0, l]);
    // Flow 4 makes the credits that flow 0 and flow 1 use by their weights.
    three_ending(load, l, more, more * credit)
        .block(4, 2 * l + 4, &[0, 0, credit])
        .many(4, 4, 2 * l + 4, &[0, 0, l])
}

/// Up to the first blocks of flow 1, for a flow 0 of this weight.
fn three_opening(flows: usize, l: u32, weight: u32) -> PlanLoad {
    let weight = weight as usize;
    PlanLoad::new(3, flows)
        // Its excess makes a credit of L for round 2.
        .block(3, 0, &[1, 0, l])
        // Stage 2 is busy until tick 2 L + 1, and then with A.
        .many(2, 2, 1, &[0, l, 0])
        .block(2, 1, &[0, 0, 1])
        // A, in round 2.
        .block(0, 1, &[0, 0, 1])
        .block(0, 1, &[0, l - 1, l - 1])
        .many(weight, 0, 1, &[0, 0, l])
        .block(3, 1, &[2, 0, 0])
        // B, in round 3.
        .many(weight, 0, 2, &[0, 0, l])
        .block(0, 2, &[1, 0, l])
        .block(1, 2 * l + 2, &[l, 0, 0])
        .block(1, 2 * l + 2, &[0, 0, 1])
}

/// Flow 0 comes back while flow 1 is in its turn: its turns of round 5, of so many ticks and L, and
/// of rounds 6 and 7, and a block that waits meanwhile.
fn three_ending(load: PlanLoad, l: u32, weight: u32, ticks: u32) -> PlanLoad {
    let arrival = 2 * l + 3;
    load.block(0, arrival, &[0, 0, ticks])
        .block(0, arrival, &[0, 0, l])
        .many(weight as usize, 0, arrival, &[0, 0, l])
        .many(weight as usize, 0, arrival, &[l, 0, 0])
        .block(0, arrival, &[0, 0, 1])
}

/// Here flow 1 stands before flow 0 in each round: its first turn, in round 4, has a credit of L
/// and takes 2 L at stage 1, while A's second block passes stages 2 and 3. From tick 3 L + 2
/// up to 11 L + 2 flow 0 gets as much as with three stages, and flow 1 gets 6 ticks.
fn four_stages(l: u32) -> PlanLoad {
    let load = four_opening(6, l)
        .block(4, 3, &[2, 0, 0, 0])
        // B, in round 3.
        .many(2, 0, 5, &[0, 0, 0, l])
        .block(5, 6, &[2, 0, 0, 0]);
    four_flow_1(load, l)
        .many(3, 0, l + 6, &[0, 0, 0, l])
        .block(0, l + 6, &[l, 0, 0, 0])
        .block(0, l + 6, &[0, 0, 0, 1])
}

/// Flow 0 always has a block that waits, so it leaves after neither A nor B and drops nothing. This
/// is almost source 000's bound, six times L, which doesn't count with a flow that leaves.
fn no_leaving(l: u32) -> PlanLoad {
    let load = four_opening(4, l)
        .many(3, 0, 2, &[0, 0, 0, l])
        .block(0, 2, &[l, 0, 0, 0])
        .block(0, 2, &[0, 0, 0, 1]);
    four_flow_1(load, l)
}

/// Up to A, in round 2.
fn four_opening(flows: usize, l: u32) -> PlanLoad {
    PlanLoad::new(4, flows)
        .block(2, 0, &[1, 0, 0, l])
        .block(2, 0, &[1, l, 0, 0])
        .block(2, 0, &[1, 0, 0, l])
        .block(2, 0, &[1, 0, 0, 0])
        .block(3, 0, &[2, 0, 0, 0])
        .block(0, 2, &[0, 0, 0, 1])
        .block(0, 2, &[0, l - 1, l - 1, l - 1])
        .block(0, 2, &[0, 0, 0, l])
}

/// All blocks of flow 1, from round 4 on.
fn four_flow_1(load: PlanLoad, l: u32) -> PlanLoad {
    load.many(2, 1, l + 5, &[l, 0, 0, 0])
        .block(1, l + 5, &[0, 0, 0, 1])
        .many(2, 1, l + 5, &[0, 0, 0, l])
}
