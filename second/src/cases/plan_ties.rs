//! Blocks that have their largest time at two stages or more: every kind of them alone, beside
//! blocks without a tie, and mixed in loads of several flows.

use crate::build::plan_load::{PlanLoad, ALL};
use crate::build::random::Random;
use crate::cases::Cases;
use crate::rules::file::{Block, LONGEST_TIME};

/// A block's times as far as they matter here, stage by stage.
pub type Kind = Vec<Share>;

#[derive(Clone, Copy, Debug, PartialEq)]
pub enum Share {
    Nothing,
    Less,
    Largest,
}

pub fn add(cases: &mut Cases) {
    let mut random = Random::new(20_240_109);
    for stages in 2..=4 {
        let kinds = kinds(stages);
        for kind in &kinds {
            alone(cases, kind);
            beside_others(cases, kind);
        }
        mixed(cases, &mut random, &kinds);
    }
}

/// All kinds of blocks that have their largest time at two or more of so many stages.
pub fn kinds(stages: usize) -> Vec<Kind> {
    let mut kinds = vec![Vec::new()];
    for _ in 0..stages {
        let longer = |kind: &Kind| {
            let ends = [Share::Nothing, Share::Less, Share::Largest];
            ends.map(|end| [kind.as_slice(), &[end]].concat())
        };
        kinds = kinds.iter().flat_map(longer).collect();
    }
    kinds.retain(is_tie);
    kinds
}

fn is_tie(kind: &Kind) -> bool {
    let largest = kind.iter().filter(|&&share| share == Share::Largest);
    largest.count() > 1
}

/// The kind of a block in a load of so many stages.
pub fn kind_of(block: &Block, stages: usize) -> Kind {
    let largest = block.times.iter().max();
    let share = |time: &u32| match time {
        0 => Share::Nothing,
        time if Some(time) == largest => Share::Largest,
        _ => Share::Less,
    };
    block.times[..stages].iter().map(share).collect()
}

/// The times of a block of this kind; `less` isn't 0, and below `largest`.
fn times(kind: &Kind, less: u32, largest: u32) -> Vec<u32> {
    let time = |share: &Share| match share {
        Share::Nothing => 0,
        Share::Less => less,
        Share::Largest => largest,
    };
    kind.iter().map(time).collect()
}

/// One block, with small times and with the longest.
fn alone(cases: &mut Cases, kind: &Kind) {
    for (less, largest) in [(2, 3), (LONGEST_TIME - 1, LONGEST_TIME)] {
        let load = PlanLoad::new(kind.len(), 1).block(0, 0, &times(kind, less, largest));
        cases.plan(&load.ask(ALL), 0);
    }
}

/// Two blocks by turns with another flow's, which have the same largest time at stage 1 and at the
/// last alone.
fn beside_others(cases: &mut Cases, kind: &Kind) {
    let tie = times(kind, 3, 4);
    let mut first = vec![1; kind.len()];
    let mut last = first.clone();
    first[0] = 4;
    last[kind.len() - 1] = 4;
    let load = PlanLoad::new(kind.len(), 2)
        .block(0, 0, &tie)
        .block(1, 0, &first)
        .block(0, 0, &tie)
        .block(1, 0, &last);
    cases.plan(&load.ask(ALL), 0);
}

/// Random kinds and times, in loads of two to four flows; the rows of every second load are printed
/// whole.
fn mixed(cases: &mut Cases, random: &mut Random, kinds: &[Kind]) {
    for place in 0..40 {
        let flows = random.between(2, 4);
        let mut load = PlanLoad::new(kinds[0].len(), flows);
        let mut arrival = 0;
        for _ in 0..[4, 4 + place / 6][place % 2] {
            let kind = &kinds[random.below(kinds.len())];
            let less = random.between(1, 6) as u32;
            let largest = less + random.between(1, 3) as u32;
            let flow = random.below(flows) as u32;
            load.push(flow, arrival, &times(kind, less, largest));
            arrival += random.pick(&[0, 0, 1, 3, 7]);
        }
        cases.plan(&load.ask(ALL), 0);
    }
}
