//! Loads sought for what happens in their plans: holds, flows that run empty and come back,
//! balances of 0, newcomers within a round, and whatever else document 01 rules on.

use crate::build::loads;
use crate::build::plan_load::{PlanLoad, ALL};
use crate::build::random::Random;
use crate::cases::Cases;
use crate::checks::turns::{Turn, Turns};
use crate::rules::row::Row;

/// How many random loads of a size are tried for one case.
const TRIES: usize = 300;
/// Some events need more blocks than the smallest loads have, but none needs more than these.
const ENOUGH_BLOCKS: usize = 12;

/// Something that happens in a plan or doesn't.
type Event = fn(&Turns) -> bool;

pub const EVENTS: [(&str, Event); 16] = [
    ("several flows are held in one round", several_held),
    ("a flow ran empty, comes back and is held", returns_held),
    ("a flow ran empty, comes back and isn't held", returns_free),
    ("a flow is held by a turn long ago", held_late),
    ("a turn goes on at balance 0", goes_on_at_0),
    ("a turn ends with balance 0", ends_at_0),
    ("a flow joins within a round", joins_within_a_round),
    ("the credit falls and isn't 0", credit_falls),
    ("the credit rises from above 0", credit_rises),
    ("a block arrives as its flow's turn ends", arrives_at_end),
    ("a flow joins as another rejoins", joins_beside_rejoin),
    ("a block arrives within a hold", arrives_in_hold),
    ("a block arrives as a hold ends", arrives_at_hold_end),
    ("a turn of several blocks holds the next", long_turn_holds),
    ("a turn takes no ticks at stage 1", takes_no_ticks),
    ("the planner is idle between turns", idle_between),
];

pub fn add(cases: &mut Cases) {
    for (number, (_, event)) in EVENTS.iter().enumerate() {
        let mut random = Random::new(20_240_200 + number as u64);
        for place in 0..72 {
            // Most have so few rows that they are printed whole.
            let blocks = [3, 4, 4, 4, 6, 9][place % 6];
            let load = seek(&mut random, blocks, *event);
            cases.plan(&load.ask(ALL), 0);
        }
    }
}

/// A random load in whose plan the event happens, of so many blocks or else of a few more.
fn seek(random: &mut Random, blocks: usize, event: Event) -> PlanLoad {
    for more in blocks..=ENOUGH_BLOCKS {
        for _ in 0..TRIES {
            let load = loads::lively(random, more);
            let rows = load.rows();
            if event(&Turns::of(&load, &rows)) {
                return load;
            }
        }
    }
    panic!("no load was found in whose plan an event happens");
}

fn several_held(turns: &Turns) -> bool {
    let held_with = |turn: &Turn| {
        let round = turns.of_round(turn.round());
        turn.hold() > 0 && round.filter(|other| other.hold() > 0).count() > 1
    };
    turns.all.iter().any(held_with)
}

fn returns_held(turns: &Turns) -> bool {
    let mut all = turns.all.iter();
    all.any(|turn| turns.returns(turn) && turn.hold() > 0)
}

fn returns_free(turns: &Turns) -> bool {
    let mut all = turns.all.iter();
    all.any(|turn| turns.returns(turn) && turn.hold() == 0)
}

fn held_late(turns: &Turns) -> bool {
    let rounds_since = |turn: &Turn| {
        let previous = turns.previous(turn);
        previous.map_or(0, |previous| turn.round() - previous.round())
    };
    let mut held = turns.all.iter().filter(|turn| turn.hold() > 0);
    held.any(|turn| rounds_since(turn) > 1)
}

fn goes_on_at_0(turns: &Turns) -> bool {
    let mut all = turns.all.iter();
    all.any(|turn| turn.rows[1..].iter().any(|row| row.balance == 0))
}

fn ends_at_0(turns: &Turns) -> bool {
    turns.all.iter().any(|turn| turn.balance_left() == 0)
}

/// A flow joins while a flow of the open round is still to be taken: it has to wait for the next.
fn joins_within_a_round(turns: &Turns) -> bool {
    let joins = |turn: &Turn| {
        let came = turns.arrival(turn.first());
        let newcomer = turn.previous.is_none() || turns.returns(turn);
        let mut before = turns.of_round(turn.round() - 1);
        let opened = before.next().map_or(u64::MAX, |first| first.ready);
        newcomer && opened < came && before.any(|other| came < other.ready)
    };
    turns.all.iter().any(joins)
}

/// The credits of the rounds, in order.
fn credits(turns: &Turns) -> Vec<i64> {
    let rounds = turns.rows.last().map_or(0, |row| row.round);
    (1..=rounds).map(|round| turns.credit(round)).collect()
}

fn credit_falls(turns: &Turns) -> bool {
    credits(turns).windows(2).any(|c| c[0] > c[1] && c[1] > 0)
}

fn credit_rises(turns: &Turns) -> bool {
    credits(turns).windows(2).any(|c| c[0] < c[1] && c[0] > 0)
}

/// The flow stays only because of a block that arrives at this very tick.
fn arrives_at_end(turns: &Turns) -> bool {
    let barely = |turn: &Turn| {
        let (flow, end) = (turn.flow(), turn.end());
        end > 0 && turn.stays && !turns.waits(turn.later, flow, end - 1)
    };
    turns.all.iter().any(barely)
}

/// Another flow, of which nothing waits yet, arrives at the tick at which this one rejoins.
fn joins_beside_rejoin(turns: &Turns) -> bool {
    let beside = |turn: &Turn| {
        let end = turn.end();
        let joins_now = |row: &Row| {
            turns.arrival(row) == end && !turns.waits(turn.later, row.flow, end.saturating_sub(1))
        };
        let mut others = turn.later.iter().filter(|row| row.flow != turn.flow());
        turn.stays && others.any(joins_now)
    };
    turns.all.iter().any(beside)
}

fn arrives_in_hold(turns: &Turns) -> bool {
    let within = |turn: &Turn| {
        let start = turn.first().spans[0].start;
        let mut arrivals = turn.later.iter().map(|row| turns.arrival(row));
        arrivals.any(|tick| turn.ready < tick && tick < start)
    };
    turns.all.iter().any(within)
}

fn arrives_at_hold_end(turns: &Turns) -> bool {
    let at_end = |turn: &Turn| {
        let start = turn.first().spans[0].start;
        let mut arrivals = turn.later.iter().map(|row| turns.arrival(row));
        turn.hold() > 0 && arrivals.any(|tick| tick == start)
    };
    turns.all.iter().any(at_end)
}

/// The first block of the turn before decides, though the turn had more.
fn long_turn_holds(turns: &Turns) -> bool {
    let mut held = turns.all.iter().filter(|turn| turn.hold() > 0);
    held.any(|turn| {
        let previous = turns.previous(turn);
        previous.map_or(false, |previous| previous.rows.len() > 1)
    })
}

fn takes_no_ticks(turns: &Turns) -> bool {
    let mut all = turns.all.iter();
    all.any(|turn| turn.first().spans[0].start == turn.end())
}

fn idle_between(turns: &Turns) -> bool {
    let mut pairs = turns.all.windows(2);
    pairs.any(|pair| pair[0].end() < pair[1].ready)
}
