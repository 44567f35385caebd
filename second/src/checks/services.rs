//! How far the services of two flows that wait differ in a plan, as its rows show it. The check of
//! the bound and the search for loads near it look at this.

use crate::build::plan_load::PlanLoad;
use crate::checks::turns::Turns;

/// The largest difference of two services in a plan, and the largest stage time of its load.
#[derive(Clone, Copy)]
pub struct Ratio {
    pub difference: u64,
    pub largest_time: u64,
}

impl Ratio {
    pub fn above(&self, other: &Ratio) -> bool {
        self.difference * other.largest_time > other.difference * self.largest_time
    }

    /// To the nearest hundredth, and the two numbers: a load can come so near to the bound that the
    /// hundredths don't tell them apart.
    pub fn text(&self) -> String {
        let (difference, largest) = (self.difference, self.largest_time);
        let hundredths = (200 * difference + largest) / (2 * largest);
        let (whole, part) = (hundredths / 100, hundredths % 100);
        format!("{}.{:02} ({} of {})", whole, part, difference, largest)
    }
}

/// How unfair the plan of a load is.
pub fn ratio_of(load: &PlanLoad) -> Ratio {
    let rows = load.rows();
    ratio(&Turns::of(load, &rows))
}

/// Of every two flows and every stretch of ticks at which both wait, the largest difference of
/// their services between two ticks of the stretch.
pub fn ratio(turns: &Turns) -> Ratio {
    let times = turns.load.blocks.iter().flat_map(|block| block.times);
    let ticks = ticks(turns);
    let mut difference = 0;
    for one in 0..turns.load.flows as u64 {
        for other in one + 1..turns.load.flows as u64 {
            difference = difference.max(largest_difference(turns, &ticks, one, other));
        }
    }
    Ratio {
        difference,
        largest_time: u64::from(times.max().unwrap_or(1)),
    }
}

/// The ticks at which something arrives, starts or finishes, in order. Between two of them no
/// flow begins or ends to wait, and a flow's service grows by the same at every tick, by one for
/// each of its blocks that is at its dominant stage. So the difference of two services is a
/// straight line between them, and has its highest and lowest values at these ticks.
fn ticks(turns: &Turns) -> Vec<u64> {
    let mut ticks = Vec::new();
    for row in turns.rows {
        ticks.push(turns.arrival(row));
        for span in &row.spans[..turns.load.stages] {
            ticks.extend([span.start, span.finish]);
        }
    }
    ticks.sort_unstable();
    ticks.dedup();
    ticks
}

/// The difference of two services between ticks t and u is the rise of their difference since
/// tick 0 from t to u. So in a stretch in which both flows wait, whichever comes first, the
/// largest is that between the highest and the lowest value.
fn largest_difference(turns: &Turns, ticks: &[u64], one: u64, other: u64) -> u64 {
    let mut largest = 0;
    let mut stretch: Option<(i64, i64)> = None;
    for &tick in ticks {
        let value = service(turns, one, tick) as i64 - service(turns, other, tick) as i64;
        // The tick belongs to the stretch before it too: the second tick of a pair is one at
        // which the flows need not wait any more.
        if let Some((lowest, highest)) = stretch {
            stretch = Some((lowest.min(value), highest.max(value)));
            largest = largest.max(highest.max(value) - lowest.min(value));
        }
        let both = waits_at(turns, one, tick) && waits_at(turns, other, tick);
        stretch = match stretch {
            Some(found) if both => Some(found),
            None if both => Some((value, value)),
            _ => None,
        };
    }
    largest as u64
}

/// Whether a block of the flow has arrived and starts at stage 1 after the tick.
fn waits_at(turns: &Turns, flow: u64, tick: u64) -> bool {
    let mut own = turns.rows.iter().filter(|row| row.flow == flow);
    own.any(|row| turns.arrival(row) <= tick && tick < row.spans[0].start)
}

/// What the flow's blocks get at their dominant stages from tick 0 up to but without this one.
fn service(turns: &Turns, flow: u64, tick: u64) -> u64 {
    let own = turns.rows.iter().filter(|row| row.flow == flow);
    own.map(|row| {
        let span = row.dominant_span();
        tick.clamp(span.start, span.finish) - span.start
    })
    .sum()
}
