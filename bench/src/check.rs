//! Whether the programs give the same: number, counts, every record and every word of the rows.

use crate::call::{Asked, Counts, Plan, Program, Record, MOST_BLOCKS, MOST_FLOWS, ROW_WORDS};
use crate::calls;
use crate::loads::{self, Shape, AT_ONCE, SHAPES, SIZES};
use crate::random::Random;

const SMALL_CALLS: usize = 5_000;
/// The small calls have each answer at least so often.
const LEAST: usize = 40;

/// How many calls were compared.
pub struct Compared {
    pub loads: usize,
    pub small: usize,
    pub refused: usize,
}

/// Compares the first program with each other one. The first difference is an error.
pub fn all(programs: &[Program]) -> Result<Compared, String> {
    let loads = measured_loads(programs)?;
    let refused = small_calls(programs)?;
    Ok(Compared {
        loads,
        small: SMALL_CALLS,
        refused,
    })
}

/// Every load that is measured, and each also cut short by a limit.
fn measured_loads(programs: &[Program]) -> Result<usize, String> {
    let mut compared = 0;
    for shape in &SHAPES {
        compared += loads_of(programs, shape, MOST_BLOCKS)?;
    }
    for blocks in SIZES.iter().filter(|&&blocks| blocks < MOST_BLOCKS) {
        compared += loads_of(programs, &AT_ONCE, *blocks)?;
    }
    Ok(compared)
}

fn loads_of(programs: &[Program], shape: &Shape, blocks: usize) -> Result<usize, String> {
    let mut random = Random::new(2);
    let loads = loads::make(shape, blocks);
    for (place, load) in loads.iter().enumerate() {
        for limit in [blocks as u32, random.between(0, blocks as u32 - 1)] {
            let what = format!(
                "{}, load {} of {} blocks, limit {}",
                shape.name,
                place + 1,
                blocks,
                limit
            );
            // There is room to spare.
            compare(
                programs,
                &what,
                &load.ask(u64::from(limit)),
                MOST_FLOWS + 2,
                ROW_WORDS * (blocks + 1),
            )?;
        }
    }
    Ok(loads.len())
}

/// Answers how many calls were refused. Each number of a plan call has to be among the answers.
fn small_calls(programs: &[Program]) -> Result<usize, String> {
    let mut random = Random::new(3);
    let mut given = [0; 12];
    for place in 0..SMALL_CALLS {
        let call = calls::small(&mut random);
        let what = format!("small call {}", place + 1);
        let number = compare(
            programs,
            &what,
            &call.load.ask(call.limit),
            call.records,
            call.rows,
        )?;
        given[number as usize] += 1;
    }
    for number in [0, 3, 4, 7, 8, 9, 10, 11] {
        if given[number] < LEAST {
            return Err(format!("{} small calls give {}", given[number], number));
        }
    }
    Ok(SMALL_CALLS - given[0])
}

/// What a program answers, and the tables after it.
#[derive(PartialEq)]
struct Outcome {
    number: u64,
    counts: Counts,
    records: Vec<Record>,
    rows: Vec<u64>,
}

/// What the tables hold before a call: in each place another word.
fn record_before(place: usize) -> Record {
    let word = 1_000_000_000_000 + 10 * place as u64;
    [word, word + 1, word + 2]
}

fn row_word_before(place: usize) -> u64 {
    2_000_000_000_000 + place as u64
}

impl Outcome {
    fn of(plan: Plan, asked: &Asked, records: usize, rows: usize) -> Outcome {
        let mut outcome = Outcome {
            number: 0,
            counts: [u64::MAX; 6],
            records: (0..records).map(record_before).collect(),
            rows: (0..rows).map(row_word_before).collect(),
        };
        let (records, rows) = (&mut outcome.records, &mut outcome.rows);
        outcome.number = plan(asked, records, rows, &mut outcome.counts);
        outcome
    }

    /// What a program has written where it may not: past the plan, or anything on a refusal.
    fn misplaced(&self, asked: &Asked) -> Option<String> {
        let (flows, words) = match self.number {
            0 => (asked.flows, ROW_WORDS * asked.listed()),
            _ => (0, 0),
        };
        let record = (flows..self.records.len()).find(|&at| self.records[at] != record_before(at));
        let word = (words..self.rows.len()).find(|&at| self.rows[at] != row_word_before(at));
        match (record, word) {
            (Some(at), _) => Some(format!("record {}", at)),
            (_, Some(at)) => Some(row_word(at)),
            _ if self.number != 0 && self.counts != [0; 6] => Some("the counts".to_string()),
            _ => None,
        }
    }

    /// Where another outcome of the same call first differs, with both values.
    fn difference(&self, other: &Outcome) -> Option<String> {
        if self == other {
            return None;
        }
        let mut words = vec![("the number".to_string(), self.number, other.number)];
        for (at, (own, others)) in self.counts.iter().zip(&other.counts).enumerate() {
            words.push((format!("count {}", at), *own, *others));
        }
        for (flow, (own, others)) in self.records.iter().zip(&other.records).enumerate() {
            for at in 0..own.len() {
                words.push((format!("record {}, word {}", flow, at), own[at], others[at]));
            }
        }
        for (at, (own, others)) in self.rows.iter().zip(&other.rows).enumerate() {
            words.push((row_word(at), *own, *others));
        }
        let (place, own, others) = words.iter().find(|(_, own, others)| own != others)?;
        Some(format!("{} is {} and {}", place, own, others))
    }
}

fn row_word(at: usize) -> String {
    format!("row {}, word {}", at / ROW_WORDS, at % ROW_WORDS)
}

/// Has each program answer the call, and answers the number that all of them give.
fn compare(
    programs: &[Program],
    what: &str,
    asked: &Asked,
    records: usize,
    rows: usize,
) -> Result<u64, String> {
    let mut outcomes = Vec::new();
    for program in programs {
        let outcome = Outcome::of(program.plan, asked, records, rows);
        if let Some(place) = outcome.misplaced(asked) {
            return Err(format!("{}: {} writes {}", what, program.name, place));
        }
        outcomes.push(outcome);
    }
    for (program, outcome) in programs.iter().zip(&outcomes) {
        if let Some(found) = outcomes[0].difference(outcome) {
            let names = format!("{} and {}", programs[0].name, program.name);
            return Err(format!("{}: {} by {}", what, found, names));
        }
    }
    Ok(outcomes[0].number)
}
