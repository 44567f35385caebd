//! The self-tests of the plan call: document 01's examples as direct assertions, the form of
//! lines and cases, the lent tables, and what the plan cases have to contain.

use std::ops::Range;

use crate::battery::answer::{self, planned, records_before, rows_before, MOST_WORDS_SHOWN};
use crate::battery::case::{self, Call, Case};
use crate::battery::count::Tally;
use crate::battery::plan_case::PlanCase;
use crate::build::examples::{e1, e11, e2, e3, e4, e5, e6_or_e7, e8, e9};
use crate::build::plan_load::{PlanLoad, ALL};
use crate::cases::plan_events::EVENTS;
use crate::cases::plan_lists::RETURNS;
use crate::cases::plan_ties::{kind_of, kinds};
use crate::cases::Made;
use crate::checks::turns::Turns;
use crate::rules::row::{FlowRecord, ROW_WORDS};
use crate::tests::Checks;

/// The numbers that the plan call can give.
const NUMBERS: [usize; 8] = [0, 3, 4, 7, 8, 9, 10, 11];

pub fn run(checks: &mut Checks, made: &[Made], plans: &[PlanCase]) {
    small_examples(checks);
    examples_with_holds(checks);
    example_of_balances(checks);
    examples_of_arrivals(checks);
    example_of_a_round(checks);
    examples_of_limits(checks);
    example_of_a_return(checks);
    lines(checks);
    digests(checks);
    malformed_cases(checks);
    tables(checks, plans);
    contents(checks, made, plans);
    events(checks, plans);
    ties(checks, plans);
    lists(checks, plans);
}

/// The cases of the plan call.
pub fn plans(made: &[Made]) -> Vec<PlanCase> {
    made.iter()
        .filter(|made| made.case.call == Call::Plan)
        .map(|made| PlanCase::of(&made.case).expect("a judged case"))
        .collect()
}

/// What document 01 says of a plan. A row is given without the words of the last two stages,
/// which no example has.
struct Expected<'a> {
    counts: [u64; 6],
    records: &'a [FlowRecord],
    rows: &'a [[u64; 11]],
}

fn assert_plan(checks: &mut Checks, name: &str, load: &PlanLoad, limit: u64, expected: Expected) {
    let given = planned(&load.ask(limit));
    let counts = given.result.map(|counts| counts.words());
    checks.check(counts == Ok(expected.counts), &format!("{}: counts", name));
    let same = given.records == expected.records;
    checks.check(same, &format!("{}: records", name));
    let mut rows = Vec::new();
    for row in expected.rows {
        rows.extend_from_slice(row);
        rows.extend([0; 4]);
    }
    checks.check(given.rows == rows, &format!("{}: rows", name));
}

/// E1, E2 and E9.
fn small_examples(checks: &mut Checks) {
    let nothing = Expected {
        counts: [0; 6],
        records: &[],
        rows: &[],
    };
    assert_plan(checks, "E1", &e1(), ALL, nothing);
    let by_turns = Expected {
        counts: [4, 4, 2, 0, 0, 9],
        records: &[[2, 2, 6], [2, 2, 6]],
        rows: &[
            [0, 0, 1, 1, 0, 0, 2, 0, 1, 1, 4],
            [1, 1, 1, 2, 0, 0, 1, 1, 4, 4, 5],
            [2, 0, 2, 3, 0, 0, 2, 4, 5, 5, 8],
            [3, 1, 2, 4, 0, 0, 1, 5, 8, 8, 9],
        ],
    };
    assert_plan(checks, "E2", &e2(), ALL, by_turns);
    let tie = Expected {
        counts: [1, 1, 1, 0, 0, 6],
        records: &[[1, 1, 3]],
        rows: &[[0, 0, 1, 1, 0, 0, 2, 0, 3, 3, 6]],
    };
    assert_plan(checks, "E9", &e9(), ALL, tie);
}

/// E3 and E4.
fn examples_with_holds(checks: &mut Checks) {
    let one_flow = Expected {
        counts: [3, 3, 3, 1, 9, 31],
        records: &[[3, 3, 30]],
        rows: &[
            [0, 0, 1, 1, 0, 0, 2, 0, 1, 1, 11],
            [1, 0, 2, 2, 0, 0, 2, 1, 2, 11, 21],
            [2, 0, 3, 3, 0, 9, 2, 11, 12, 21, 31],
        ],
    };
    assert_plan(checks, "E3", &e3(), ALL, one_flow);
    let two_flows = Expected {
        counts: [6, 6, 3, 3, 26, 61],
        records: &[[3, 3, 30], [3, 3, 30]],
        rows: &[
            [0, 0, 1, 1, 0, 0, 2, 0, 1, 1, 11],
            [1, 1, 1, 2, 0, 0, 2, 1, 2, 11, 21],
            [2, 0, 2, 3, 0, 0, 2, 2, 3, 21, 31],
            [3, 1, 2, 4, 0, 8, 2, 11, 12, 31, 41],
            [4, 0, 3, 5, 0, 9, 2, 21, 22, 41, 51],
            [5, 1, 3, 6, 0, 9, 2, 31, 32, 51, 61],
        ],
    };
    assert_plan(checks, "E4", &e4(), ALL, two_flows);
}

/// E5.
fn example_of_balances(checks: &mut Checks) {
    let expected = Expected {
        counts: [6, 4, 2, 0, 0, 19],
        records: &[[4, 2, 9], [2, 2, 10]],
        rows: &[
            [0, 0, 1, 1, 0, 0, 1, 0, 2, 0, 0],
            [4, 1, 1, 2, 0, 0, 1, 2, 7, 0, 0],
            [1, 0, 2, 3, 3, 0, 1, 7, 8, 0, 0],
            [2, 0, 2, 3, 2, 0, 1, 8, 9, 0, 0],
            [3, 0, 2, 3, 1, 0, 1, 9, 14, 0, 0],
            [5, 1, 2, 4, 0, 0, 1, 14, 19, 0, 0],
        ],
    };
    assert_plan(checks, "E5", &e5(), ALL, expected);
}

/// E6 and E7; whether the flow stays listed doesn't show in the rows' words.
fn examples_of_arrivals(checks: &mut Checks) {
    for (name, arrival) in [("E6", 4), ("E7", 5)] {
        let load = e6_or_e7(arrival);
        let start = u64::from(arrival);
        let expected = Expected {
            counts: [2, 2, 2, 0, 0, start + 4],
            records: &[[2, 2, 8]],
            rows: &[
                [0, 0, 1, 1, 0, 0, 1, 0, 4, 0, 0],
                [1, 0, 2, 2, 0, 0, 1, start, start + 4, 0, 0],
            ],
        };
        assert_plan(checks, name, &load, ALL, expected);
        let rows = load.rows();
        let stays = Turns::of(&load, &rows).all[0].stays;
        checks.check(stays == (arrival == 4), &format!("{}: stays", name));
    }
}

/// E8.
fn example_of_a_round(checks: &mut Checks) {
    let expected = Expected {
        counts: [4, 4, 2, 0, 0, 9],
        records: &[[2, 2, 6], [1, 1, 2], [1, 1, 1]],
        rows: &[
            [0, 0, 1, 1, 0, 0, 1, 0, 3, 0, 0],
            [2, 1, 1, 2, 0, 0, 1, 3, 5, 0, 0],
            [3, 2, 2, 3, 3, 0, 1, 5, 6, 0, 0],
            [1, 0, 2, 4, 0, 0, 1, 6, 9, 0, 0],
        ],
    };
    assert_plan(checks, "E8", &e8(), ALL, expected);
}

/// E10.
fn examples_of_limits(checks: &mut Checks) {
    let two = Expected {
        counts: [2, 2, 1, 0, 0, 5],
        records: &[[1, 1, 3], [1, 1, 3]],
        rows: &[
            [0, 0, 1, 1, 0, 0, 2, 0, 1, 1, 4],
            [1, 1, 1, 2, 0, 0, 1, 1, 4, 4, 5],
        ],
    };
    assert_plan(checks, "E10 with n = 2", &e2(), 2, two);
    let nothing = Expected {
        counts: [0; 6],
        records: &[[0; 3], [0; 3]],
        rows: &[],
    };
    assert_plan(checks, "E10 with n = 0", &e2(), 0, nothing);
}

/// E11.
fn example_of_a_return(checks: &mut Checks) {
    let expected = Expected {
        counts: [3, 3, 2, 1, 7, 22],
        records: &[[2, 2, 11], [1, 1, 10]],
        rows: &[
            [0, 1, 1, 1, 0, 0, 2, 0, 1, 1, 11],
            [1, 0, 1, 2, 0, 0, 2, 1, 2, 11, 21],
            [2, 0, 2, 3, 0, 7, 2, 11, 12, 21, 22],
        ],
    };
    assert_plan(checks, "E11", &e11(), ALL, expected);
}

/// The lines as they are to be printed, from cases written byte by byte.
fn lines(checks: &mut Checks) {
    let line = |limit: u8, flows: u8, row_words: u8| {
        let mut bytes = vec![4, 0, 0, 0, 0, 0, 0, 0, 40, 0, 0, 0, 24];
        for number in [limit, 1, flows, 1] {
            bytes.extend([0, 0, 0, 0, 0, 0, 0, number]);
        }
        bytes.extend([0, 0, 0, 2, 0, 0, 0, row_words]);
        for word in [0, 7, 3, 0, 0, 0] {
            bytes.extend([0, 0, 0, word]);
        }
        let cases = case::decode(&bytes).expect("a good case file");
        answer::line(&answer::answer(&cases[0]))
    };
    let row = "0 0 1 1 0 0 1 7 10 0 0 0 0 0 0";
    let beyond = "5000000003 5000000004 5000000005";
    let text = format!("plan 0 1 1 1 0 0 10 | 1 1 3 {} | {}", beyond, row);
    checks.check(line(1, 1, 15) == text, "line of a plan");
    let text = format!("{} 6000000015", text);
    checks.check(line(9, 1, 16) == text, "line with room beyond");
    let text = format!("plan 0 0 0 0 0 0 0 | 0 0 0 {} | 6000000000", beyond);
    checks.check(line(0, 1, 1) == text, "line of a plan without rows");
    let before = "5000000000 5000000001 5000000002";
    let text = format!("plan 7 0 0 0 0 0 0 | {} {} |", before, beyond);
    checks.check(line(1, 1, 0) == text, "line of a refusal");
    checks.check(line(1, 0, 15).starts_with("plan 8 "), "line of number 8");
}

/// 64-bit words go into the digest by halves, the low one first.
fn digests(checks: &mut Checks) {
    let factor = 16_777_619u32;
    let one = 3u32.wrapping_mul(factor).wrapping_add(5);
    let two = one.wrapping_mul(factor).wrapping_add(7);
    let words = [3 + (5 << 32), 7];
    let digest = answer::long_digest(&words);
    checks.check(digest == two.wrapping_mul(factor), "digest of long words");
    let case = PlanLoad::new(1, 21).ask(0).with_row_words(61);
    let line = answer::line(&answer::answer(&case.case()));
    let records = answer::long_digest(&[0; 63]);
    let rows = answer::long_digest(&rows_before(61));
    let text = format!("plan 0 0 0 0 0 0 0 | #{} | #{}", records, rows);
    checks.check(line == text, "line of long tables");
}

/// Plan cases that aren't well formed, each by one fault.
fn malformed_cases(checks: &mut Checks) {
    let good = e9().ask(ALL).case();
    let judged = |case: &Case| case::decode(&case::encode(&[case])).is_ok();
    checks.check(judged(&good), "a good plan case");
    let mut bad = vec![good.clone(); 7];
    bad[0].number = 1;
    bad[1].standing.pop();
    bad[2].standing.push(0);
    bad[3].file.pop();
    bad[4].standing[35] = 129;
    bad[5].standing[36..].copy_from_slice(&16_385u32.to_be_bytes());
    bad[6].file = vec![0; 4 * 8_193];
    for case in &bad {
        checks.check(!judged(case), "a malformed plan case");
    }
}

/// A refused call leaves the tables as they were lent, an accepted one what lies beyond the parts
/// that it needs.
fn tables(checks: &mut Checks, plans: &[PlanCase]) {
    for case in plans {
        let given = planned(case);
        let (records, words) = match given.result {
            Ok(counts) => (
                case.asked.flows as usize,
                ROW_WORDS * counts.blocks as usize,
            ),
            Err(_) => (0, 0),
        };
        let before = records_before(case.records);
        let untouched = given.records[records..] == before[records..];
        checks.check(untouched, "the flow table beyond the plan");
        let before = rows_before(case.row_words);
        let untouched = given.rows[words..] == before[words..];
        checks.check(untouched, "the row table beyond the plan");
    }
}

/// Enough cases for each number, most of them with rows that are printed whole.
fn contents(checks: &mut Checks, made: &[Made], plans: &[PlanCase]) {
    checks.check(plans.len() >= 3_400, "at least 3,400 plan cases");
    let tally = Tally::of(made.iter().map(|made| &made.case));
    for (number, &count) in tally.plan.iter().enumerate() {
        let what = format!("plan cases for number {}", number);
        let least = if NUMBERS.contains(&number) { 40 } else { 0 };
        checks.check(count >= least && (least > 0 || count == 0), &what);
    }
    let shown = |case: &&PlanCase| case.row_words as usize <= MOST_WORDS_SHOWN;
    let whole = plans.iter().filter(shown).count();
    checks.check(2 * whole > plans.len(), "rows printed whole");
    let full = |case: &&PlanCase| case.asked.blocks == 1_024 && case.asked.flows == 64;
    let full = plans.iter().filter(full).count();
    checks.check(full >= 25, "full loads");
}

/// Looks at the plans that list all blocks of a load, where these are so many.
fn look_at(plans: &[PlanCase], blocks: Range<u64>, mut look: impl FnMut(&Turns)) {
    let whole = |case: &&PlanCase| case.asked.limit >= case.asked.blocks;
    for case in plans.iter().filter(whole) {
        if blocks.contains(&case.asked.blocks) && planned(case).result.is_ok() {
            let load = PlanLoad::of(case);
            look(&Turns::of(&load, &load.rows()));
        }
    }
}

/// Each event that loads were sought for happens in many plans. Long ones aren't looked at, since
/// that would take too long.
fn events(checks: &mut Checks, plans: &[PlanCase]) {
    let mut happened = [0; EVENTS.len()];
    look_at(plans, 0..61, |turns| {
        for (count, (_, event)) in happened.iter_mut().zip(EVENTS) {
            *count += usize::from(event(turns));
        }
    });
    for (count, (name, _)) in happened.iter().zip(EVENTS) {
        checks.check(*count >= 60, &format!("{}: {} plans", name, count));
    }
}

/// Every kind of block that has its largest time at several stages is in many plans.
fn ties(checks: &mut Checks, plans: &[PlanCase]) {
    let accepted = |case: &&PlanCase| planned(case).result.is_ok();
    let loads: Vec<PlanLoad> = plans.iter().filter(accepted).map(PlanLoad::of).collect();
    for stages in 2..=4 {
        for kind in kinds(stages) {
            let has = |load: &&PlanLoad| {
                let mut blocks = load.blocks.iter();
                load.stages == stages && blocks.any(|block| kind_of(block, stages) == kind)
            };
            let count = loads.iter().filter(has).count();
            checks.check(count >= 10, &format!("{:?}: {} plans", kind, count));
        }
    }
}

/// In some plans 64 flows wait at most of the ready ticks, in some 63, in some these by turns; and
/// in some a flow leaves the list and joins it a hundred times, alone or while others wait.
fn lists(checks: &mut Checks, plans: &[PlanCase]) {
    let mut found = [0; 5];
    look_at(plans, RETURNS as u64..u64::MAX, |turns| {
        let waiting = turns.all.iter().map(|turn| turns.waiting(turn).len());
        let waiting: Vec<usize> = waiting.collect();
        let share = |flows: usize| {
            let ticks = waiting.iter().filter(|&&waiting| waiting == flows);
            ticks.count() as f64 / waiting.len() as f64
        };
        let returns = most_returns(turns) >= RETURNS;
        let now = [
            share(64) > 0.7,
            share(63) > 0.7,
            share(64) > 0.3 && share(63) > 0.3,
            returns && share(1) == 1.0,
            returns && share(1) < 1.0,
        ];
        for (count, now) in found.iter_mut().zip(now) {
            *count += usize::from(now);
        }
    });
    for (count, least) in found.into_iter().zip([5, 1, 1, 2, 2]) {
        checks.check(count >= least, &format!("long lists: {:?} plans", found));
    }
}

/// How often the flow that does so most leaves the list and joins it again.
fn most_returns(turns: &Turns) -> usize {
    let of_flow = |flow: usize| {
        let own = turns.all.iter().filter(|turn| turn.flow() == flow as u64);
        own.filter(|turn| turns.returns(turn)).count()
    };
    (0..turns.load.flows).map(of_flow).max().unwrap_or(0)
}
