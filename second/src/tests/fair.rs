//! The self-tests of fairness: the loads near the bound differ by as much as is said of them, no
//! load of the battery comes nearer, and the check of the bound can fail.

use crate::battery::answer::planned;
use crate::battery::plan_case::PlanCase;
use crate::build::plan_load::{PlanLoad, ALL};
use crate::build::unfair;
use crate::checks::fair::{self, MOST_COMPARED, MOST_TIMES};
use crate::checks::services::{self, Ratio};
use crate::checks::turns::Turns;
use crate::rules::file::LONGEST_TIME;
use crate::rules::row::{Row, Span};
use crate::tests::Checks;

pub fn run(checks: &mut Checks, plans: &[PlanCase]) {
    known_differences(checks);
    nearest_to_the_bound(checks, plans);
    bound_fails(checks);
    text_is_exact(checks);
}

/// The loads as they are in the battery, and the rule of three stages for other largest times.
fn known_differences(checks: &mut Checks) {
    for known in unfair::all() {
        let ratio = services::ratio_of(&known.load);
        let good = ratio.difference + known.less == known.times * ratio.largest_time;
        checks.check(good, &format!("{}: {}", known.name, ratio.text()));
    }
    for l in [3, 4, 11, 100, 12_345, LONGEST_TIME - 1] {
        let ratio = services::ratio_of(&unfair::three_stages(l));
        let good = ratio.difference + 4 == 8 * u64::from(l);
        checks.check(good, &format!("three stages: {}", ratio.text()));
    }
}

/// By how many ticks the difference is below the bound.
fn below_the_bound(ratio: &Ratio) -> u64 {
    (MOST_TIMES * ratio.largest_time).saturating_sub(ratio.difference)
}

/// No load of the battery, those of the searches among them, is above the best that is known, and
/// none is fewer ticks below the bound. The searches give loads near it beside the known ones.
fn nearest_to_the_bound(checks: &mut Checks, plans: &[PlanCase]) {
    let known = unfair::all();
    let known: Vec<Ratio> = known.iter().map(|a| services::ratio_of(&a.load)).collect();
    let least = known.iter().map(below_the_bound).min().unwrap_or(0);
    let is_near = |ratio: &Ratio| below_the_bound(ratio) < ratio.largest_time;
    let mut near = 0;
    for case in plans.iter().filter(|case| compared(case)) {
        let ratio = services::ratio_of(&PlanLoad::of(case));
        let good = known.iter().any(|best| !ratio.above(best));
        checks.check(good, &format!("{} is above all known", ratio.text()));
        let good = below_the_bound(&ratio) >= least;
        checks.check(good, &format!("{} is nearer than all known", ratio.text()));
        near += usize::from(is_near(&ratio));
    }
    let known_near = known.iter().filter(|ratio| is_near(ratio)).count();
    checks.check(near > known_near, "searches near the bound");
}

/// Whether `fair` compares services in the plan of this case.
fn compared(case: &PlanCase) -> bool {
    let blocks = case.asked.blocks;
    let whole = case.asked.limit >= blocks;
    whole && blocks <= MOST_COMPARED as u64 && planned(case).result.is_ok()
}

/// Rows that no planner by the rules makes: flow 0 has blocks of these times at tick 0, flow 1 has
/// one and starts it after them all. Both wait until the last block of flow 0 starts.
fn one_after_the_other(times: &[u32]) -> Result<Ratio, String> {
    let mut load = PlanLoad::new(1, 2);
    let mut rows = Vec::new();
    let mut start = 0;
    for (place, &time) in times.iter().chain(&[1]).enumerate() {
        let flow = u32::from(place == times.len());
        load.push(flow, 0, &[time]);
        let finish = start + u64::from(time);
        let mut row = Row {
            block: place as u64,
            flow: u64::from(flow),
            round: 1,
            turn: 1 + u64::from(flow),
            dominant_stage: 1,
            ..Row::default()
        };
        row.spans[0] = Span { start, finish };
        rows.push(row);
        start = finish;
    }
    fair::served_alike(&Turns::of(&load, &rows))
}

/// Eight times the largest time is allowed, a tick more is refused.
fn bound_fails(checks: &mut Checks) {
    let mut times = vec![10; 8];
    times.push(1);
    let good = one_after_the_other(&times).map(|ratio| ratio.difference);
    checks.check(good == Ok(80), "a difference of eight times");
    times.push(1);
    let refused = one_after_the_other(&times).map(|ratio| ratio.difference);
    let text = Err("unfair by 81 ticks of at most 80".to_string());
    checks.check(refused == text, "a difference of a tick more");
}

/// The text has the difference itself where hundredths would make it eight times.
fn text_is_exact(checks: &mut Checks) {
    let case = unfair::three_stages(LONGEST_TIME).ask(ALL).case();
    let text = fair::text([case].iter()).unwrap_or_default();
    let line = "\nlargest ratio 8.00 (79999996 of 10000000)\n";
    checks.check(text.contains(line), &text);
}
