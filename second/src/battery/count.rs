//! How often each answer is given: the text of the command `count`.

use crate::battery::answer::{answer, Answer};
use crate::battery::case::Case;
use crate::rules::name::Name;

/// One place for each number 0 to 11.
const NUMBERS: usize = 12;

#[derive(Default)]
pub struct Tally {
    pub sound: [usize; NUMBERS],
    pub read: [usize; NUMBERS],
    pub name_empty: usize,
    pub name_file: usize,
    pub name_standing: usize,
    pub plan: [usize; NUMBERS],
}

impl Tally {
    pub fn of<'a>(cases: impl Iterator<Item = &'a Case>) -> Tally {
        let mut tally = Tally::default();
        for case in cases {
            tally.add(&answer(case));
        }
        tally
    }

    fn add(&mut self, answer: &Answer) {
        match answer {
            Answer::Sound(number) => self.sound[*number as usize] += 1,
            Answer::Read(Ok(_), _) => self.read[0] += 1,
            Answer::Read(Err(number), _) => self.read[*number as usize] += 1,
            // An entry of length 0 is shown as nothing, so it counts as empty.
            Answer::Name(_, bytes) if bytes.is_empty() => self.name_empty += 1,
            Answer::Name(Name::File(_), _) => self.name_file += 1,
            Answer::Name(Name::Standing(_), _) => self.name_standing += 1,
            Answer::Plan(planned) => self.plan[planned.number() as usize] += 1,
        }
    }
}

/// One `label count` a line; the last line counts all cases.
pub fn text(cases: &[Case]) -> String {
    let tally = Tally::of(cases.iter());
    let mut lines = Vec::new();
    for (number, count) in tally.sound.iter().enumerate() {
        lines.push(format!("sound-{} {}\n", number, count));
    }
    for (number, count) in tally.read.iter().enumerate() {
        lines.push(format!("read-{} {}\n", number, count));
    }
    lines.push(format!("name-empty {}\n", tally.name_empty));
    lines.push(format!("name-file {}\n", tally.name_file));
    lines.push(format!("name-standing {}\n", tally.name_standing));
    for (number, count) in tally.plan.iter().enumerate() {
        lines.push(format!("plan-{} {}\n", number, count));
    }
    lines.push(format!("cases {}\n", cases.len()));
    lines.concat()
}
