//! The list of cases as it is made, group by group.

mod block;
mod bytes;
mod edge;
mod flow;
mod generated;
mod header;
mod name;
mod order;
pub mod plan_events;
mod plan_examples;
mod plan_faults;
mod plan_limits;
pub mod plan_lists;
mod plan_shapes;
mod plan_tables;
mod plan_ticks;
pub mod plan_ties;
mod plan_unfair;
mod standing;
mod table;

use crate::battery::case::{Call, Case, MOST_BYTES, MOST_WORDS};
use crate::battery::plan_case::PlanCase;

/// What the maker of a case says about its answer. It isn't written into the case file; the
/// self-tests compare it with the answer.
#[derive(Clone, Debug)]
pub enum Expected {
    Open,
    Number(u32),
    Name(Vec<u8>),
}

pub struct Made {
    pub case: Case,
    pub expected: Expected,
}

#[derive(Default)]
pub struct Cases {
    pub made: Vec<Made>,
}

impl Cases {
    fn push(&mut self, call: Call, number: u32, standing: &[u8], file: &[u8], expected: Expected) {
        assert!(standing.len() as u32 <= MOST_BYTES && file.len() as u32 <= MOST_BYTES);
        assert!(call != Call::Reader || number <= MOST_WORDS);
        let case = Case {
            call,
            number,
            standing: standing.to_vec(),
            file: file.to_vec(),
        };
        self.made.push(Made { case, expected });
    }

    pub fn plan(&mut self, plan: &PlanCase, number: u32) {
        let case = plan.case();
        assert!(PlanCase::of(&case).as_ref() == Ok(plan));
        let expected = Expected::Number(number);
        self.made.push(Made { case, expected });
    }

    pub fn sound(&mut self, file: &[u8], number: u32) {
        self.push(Call::Soundness, 0, &[], file, Expected::Number(number));
    }

    pub fn read(&mut self, file: &[u8], words: u32, number: u32) {
        self.push(Call::Reader, words, &[], file, Expected::Number(number));
    }

    /// The soundness call and the reader, where both are to give the same number.
    pub fn both(&mut self, file: &[u8], words: u32, number: u32) {
        self.sound(file, number);
        self.read(file, words, number);
    }

    /// The same where the maker of the case leaves the number to the answer.
    pub fn both_open(&mut self, file: &[u8], words: u32) {
        self.push(Call::Soundness, 0, &[], file, Expected::Open);
        self.push(Call::Reader, words, &[], file, Expected::Open);
    }

    pub fn name(&mut self, file: &[u8], standing: &[u8], flow: u32, name: &[u8]) {
        let expected = Expected::Name(name.to_vec());
        self.push(Call::Name, flow, standing, file, expected);
    }

    pub fn name_open(&mut self, file: &[u8], standing: &[u8], flow: u32) {
        self.push(Call::Name, flow, standing, file, Expected::Open);
    }
}

/// Every case, in the order of the case file.
pub fn all() -> Vec<Made> {
    let mut cases = Cases::default();
    edge::add(&mut cases);
    header::add(&mut cases);
    flow::add(&mut cases);
    block::add(&mut cases);
    order::add(&mut cases);
    bytes::add(&mut cases);
    table::add(&mut cases);
    name::add(&mut cases);
    standing::add(&mut cases);
    generated::add(&mut cases);
    // The plan cases come last, so that the lines of all others stay where they were.
    plan_examples::add(&mut cases);
    plan_limits::add(&mut cases);
    plan_tables::add(&mut cases);
    plan_faults::add(&mut cases);
    plan_ticks::add(&mut cases);
    plan_events::add(&mut cases);
    plan_shapes::add(&mut cases);
    plan_unfair::add(&mut cases);
    plan_ties::add(&mut cases);
    plan_lists::add(&mut cases);
    cases.made
}
