//! The command `fair`: goes over the accepted plan cases and checks what plans promise. Whole plans
//! have to stand the checks of rows, to keep at most two turns of a flow under way and to be fair;
//! limited plans have to be the beginning of the whole ones.

use crate::battery::answer::planned;
use crate::battery::case::{Call, Case};
use crate::battery::plan_case::PlanCase;
use crate::build::plan_load::PlanLoad;
use crate::checks::plan::{self, require, Outcome};
use crate::checks::services::{ratio, Ratio};
use crate::checks::turns::Turns;
use crate::rules::row::{self, Row, ROW_WORDS};

/// In loads of more blocks the services aren't compared, since that would take too long.
pub const MOST_COMPARED: usize = 80;
/// Two flows that wait get services that differ by at most so many times the largest time. Demand 3
/// asks for ten; eight is what the rules keep, and is exact: `build::unfair` has loads that come
/// within 5 ticks of it for any largest time.
pub const MOST_TIMES: u64 = 8;
/// The most turns of a flow that are begun and not finished.
const MOST_TURNS: usize = 2;

/// What has been checked so far.
struct Checked {
    whole: usize,
    longer: usize,
    limited: usize,
    largest: Ratio,
}

/// The text of the command, or the case at which a check fails.
pub fn text<'a>(cases: impl Iterator<Item = &'a Case>) -> Result<String, String> {
    let mut checked = Checked {
        whole: 0,
        longer: 0,
        limited: 0,
        largest: Ratio {
            difference: 0,
            largest_time: 1,
        },
    };
    let plans = cases
        .enumerate()
        .filter(|(_, case)| case.call == Call::Plan);
    for (place, case) in plans {
        let failed = |what| format!("fair fails at case {}: {}", place, what);
        let case = PlanCase::of(case).map_err(failed)?;
        checked.check(&case).map_err(failed)?;
    }
    Ok(format!(
        "loads checked {}\nlonger loads checked without services {}\n\
         limited plans checked {}\nlargest ratio {}\nfair ok\n",
        checked.whole,
        checked.longer,
        checked.limited,
        checked.largest.text()
    ))
}

impl Checked {
    /// All checks of one case; of a refused one there is nothing to check.
    fn check(&mut self, case: &PlanCase) -> Outcome {
        let planned = planned(case);
        let counts = match planned.result {
            Ok(counts) => counts,
            Err(_) => return Ok(()),
        };
        let load = PlanLoad::of(case);
        let listed = case.asked.limit.min(case.asked.blocks) as usize;
        let rows: Vec<Row> = row::read_all(&planned.rows[..ROW_WORDS * listed]).collect();
        let records = &planned.records[..load.flows];
        plan::counts(&rows, load.stages, &counts, records)?;
        if listed < load.blocks.len() {
            self.limited += 1;
            return beginning(&load, &rows);
        }
        plan::rows(&load, &rows)?;
        let turns = Turns::of(&load, &rows);
        two_turns(&turns)?;
        if listed > MOST_COMPARED {
            self.longer += 1;
            return Ok(());
        }
        self.whole += 1;
        let ratio = served_alike(&turns)?;
        if ratio.above(&self.largest) {
            self.largest = ratio;
        }
        Ok(())
    }
}

/// How unfair the plan is, where that is within the bound.
pub fn served_alike(turns: &Turns) -> Result<Ratio, String> {
    let ratio = ratio(turns);
    let most = MOST_TIMES * ratio.largest_time;
    if ratio.difference > most {
        let over = format!("unfair by {} ticks of at most {}", ratio.difference, most);
        return Err(over);
    }
    Ok(ratio)
}

/// A limited plan lists the first rows of the whole one.
fn beginning(load: &PlanLoad, rows: &[Row]) -> Outcome {
    if load.rows()[..rows.len()] != *rows {
        return Err("a limited plan isn't the beginning of the whole one".to_string());
    }
    Ok(())
}

/// At no tick has a flow more than two turns begun and unfinished. The number only grows where a
/// turn begins, so those ticks are enough.
fn two_turns(turns: &Turns) -> Outcome {
    let last_stage = turns.last_stage();
    for turn in &turns.all {
        let tick = turn.first().spans[0].start;
        let under_way = turns.all.iter().filter(|other| {
            let begun = other.first().spans[0].start <= tick;
            let finished = other.last().spans[last_stage].finish <= tick;
            other.flow() == turn.flow() && begun && !finished
        });
        let good = under_way.count() <= MOST_TURNS;
        require(good, "more than two turns under way", turn.first())?;
    }
    Ok(())
}
