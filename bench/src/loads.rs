//! The shapes of load that are measured. A shape says whose the blocks are, when they arrive and
//! how long they take; its loads differ in what is left to chance.

use crate::call::{Load, LONGEST_TIME, MOST_BLOCKS, MOST_STAGES};
use crate::random::Random;

use Arrivals::{AtOnce, Bursts, Spread};
use Owners::{ByTurns, Mixed, OneGreedy, Runs};
use Times::{Any, ByFlow, Equal, LongLast, OneLong, Ties};

#[derive(Clone, Copy)]
pub enum Owners {
    Mixed,
    ByTurns,
    /// Half of the blocks are of one flow.
    OneGreedy,
    /// About eight blocks of one flow after each other.
    Runs,
}

#[derive(Clone, Copy)]
pub enum Arrivals {
    AtOnce,
    /// So many ticks apart on average.
    Spread(u32),
    /// So many at one tick, so many ticks apart on average.
    Bursts(usize, u32),
}

/// The average at each stage is about 500 ticks, but for the last three.
#[derive(Clone, Copy)]
pub enum Times {
    Any,
    /// Every excess is the same, so a turn has one block.
    Equal,
    ByFlow,
    /// The first block leaves so large an excess that in the next round each flow has all its
    /// blocks in one turn.
    OneLong,
    /// Short but at the last stage, so that flows are held.
    LongLast,
    /// 0 to 2 ticks.
    Ties,
}

pub struct Shape {
    pub name: &'static str,
    stages: usize,
    flows: usize,
    owners: Owners,
    arrivals: Arrivals,
    times: Times,
}

/// How many blocks the loads have by which the growth is measured, and their shape.
pub const SIZES: [usize; 5] = [64, 128, 256, 512, MOST_BLOCKS];
pub const AT_ONCE: Shape = shape("all at once", 4, 64, Mixed, AtOnce, Any);

pub const SHAPES: [Shape; 16] = [
    AT_ONCE,
    shape("all at once, by turns", 4, 64, ByTurns, AtOnce, Any),
    shape(
        "spread, stage 1 half idle",
        4,
        64,
        Mixed,
        Spread(1_000),
        Any,
    ),
    shape("spread, saturated", 4, 64, Mixed, Spread(450), Any),
    shape("bursts of 64", 4, 64, Mixed, Bursts(64, 600), Any),
    shape("four flows", 4, 4, Mixed, AtOnce, Any),
    shape("one flow", 4, 1, Mixed, AtOnce, Any),
    shape("short turns, one stage", 1, 64, Mixed, AtOnce, Equal),
    shape("long turns", 4, 64, Mixed, AtOnce, OneLong),
    shape("held, eight flows", 4, 8, Mixed, AtOnce, LongLast),
    shape("one stage", 1, 64, Mixed, AtOnce, Any),
    shape("two stages", 2, 64, Mixed, AtOnce, Any),
    shape("a dominant stage by flow", 3, 64, Mixed, AtOnce, ByFlow),
    shape("one greedy flow", 4, 64, OneGreedy, AtOnce, Any),
    shape("runs of one flow", 4, 64, Runs, Spread(450), Any),
    shape("ties and zeros", 4, 64, Mixed, Bursts(8, 1), Ties),
];

const fn shape(
    name: &'static str,
    stages: usize,
    flows: usize,
    owners: Owners,
    arrivals: Arrivals,
    times: Times,
) -> Shape {
    Shape {
        name,
        stages,
        flows,
        owners,
        arrivals,
        times,
    }
}

/// Sixteen full loads, or so many smaller ones that there are as many blocks.
pub fn make(shape: &Shape, blocks: usize) -> Vec<Load> {
    let mut random = Random::new(1);
    (0..16 * MOST_BLOCKS / blocks)
        .map(|_| load(&mut random, shape, blocks))
        .collect()
}

fn load(random: &mut Random, shape: &Shape, blocks: usize) -> Load {
    let mut table = Vec::new();
    let (mut owner, mut arrival) = (0, 0);
    for place in 0..blocks {
        owner = next_owner(random, shape, place, owner);
        table.extend([owner, arrival]);
        table.extend(times(random, shape, place, owner));
        arrival += pause(random, shape, place);
    }
    Load {
        stages: shape.stages,
        flows: shape.flows,
        blocks,
        table,
    }
}

fn next_owner(random: &mut Random, shape: &Shape, place: usize, before: u32) -> u32 {
    let any = random.between(0, shape.flows as u32 - 1);
    match shape.owners {
        Mixed => any,
        ByTurns => (place % shape.flows) as u32,
        OneGreedy => random.pick(&[0, any]),
        Runs if random.once_in(8) => any,
        Runs => before,
    }
}

/// From a block's arrival to that of the next.
fn pause(random: &mut Random, shape: &Shape, place: usize) -> u32 {
    match shape.arrivals {
        Spread(ticks) => random.between(0, 2 * ticks),
        Bursts(many, ticks) if place % many == many - 1 => many as u32 * ticks,
        AtOnce | Bursts(..) => 0,
    }
}

fn times(random: &mut Random, shape: &Shape, place: usize, owner: u32) -> [u32; MOST_STAGES] {
    let mut times = [0; MOST_STAGES];
    for (stage, time) in times.iter_mut().enumerate().take(shape.stages) {
        *time = match shape.times {
            Equal => 500,
            ByFlow if stage == owner as usize % shape.stages => random.between(500, 1_000),
            ByFlow => random.between(1, 500),
            OneLong if place == 0 => LONGEST_TIME,
            Any | OneLong => random.between(1, 1_000),
            LongLast if stage + 1 == shape.stages => random.between(500, 1_000),
            LongLast => random.between(1, 50),
            Ties => random.between(0, 2),
        };
    }
    if times == [0; MOST_STAGES] {
        times[0] = 1;
    }
    times
}
