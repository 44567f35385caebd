//! The self-tests: document 01's boundary examples as direct assertions, what the makers of the
//! cases said against the answers, and what the case file has to contain. Those of the plan call,
//! of fairness and of the printing program have files of their own.

mod fair;
mod listing;
mod plan;

use crate::battery::answer::{self, Answer};
use crate::battery::case::{self, Call, Case};
use crate::battery::count::Tally;
use crate::build::load_file::LoadFile;
use crate::build::samples::{e3_file, full_file, small_file, ten_bytes};
use crate::cases::{self, Expected, Made};
use crate::rules::file::{self, Block, Counts};
use crate::rules::name::{name, Name};

/// Counts the assertions and keeps what failed.
#[derive(Default)]
pub struct Checks {
    done: usize,
    failed: Vec<String>,
}

impl Checks {
    pub fn check(&mut self, good: bool, what: &str) {
        self.done += 1;
        if !good {
            self.failed.push(what.to_string());
        }
    }

    /// Both calls give this number, the reader with a table of exactly enough words.
    fn judged(&mut self, file: &LoadFile, number: u32, what: &str) {
        let bytes = file.bytes();
        self.check(file::soundness(&bytes) == number, what);
        let mut table = answer::table_before(file.words());
        let read = file::reader(&bytes, &mut table);
        self.check(read.err().unwrap_or(0) == number, what);
        let touched = table != answer::table_before(file.words());
        self.check(touched == (number == 0 && file.words() > 0), what);
    }
}

/// The number of assertions, all good, or a text that says which were not.
pub fn run() -> Result<usize, String> {
    let mut checks = Checks::default();
    limits(&mut checks);
    sizes(&mut checks);
    layout(&mut checks);
    lacking_stages(&mut checks);
    names(&mut checks);
    lines(&mut checks);
    let made = cases::all();
    read_back(&mut checks, &made);
    expectations(&mut checks, &made);
    contents(&mut checks, &made);
    case_file(&mut checks, &made);
    let plans = plan::plans(&made);
    plan::run(&mut checks, &made, &plans);
    fair::run(&mut checks, &plans);
    listing::run(&mut checks);
    if checks.failed.is_empty() {
        return Ok(checks.done);
    }
    Err(format!("tests failed:\n{}", checks.failed.join("\n")))
}

/// The limits of arrival, time and name.
fn limits(checks: &mut Checks) {
    let one = |arrival, time| LoadFile::new(1).flow(b"").block(0, arrival, &[time]);
    checks.judged(&one(1_000_000_000, 1), 0, "arrival at the limit");
    checks.judged(&one(1_000_000_001, 1), 9, "arrival above the limit");
    checks.judged(&one(0, 10_000_000), 0, "time at the limit");
    checks.judged(&one(0, 10_000_001), 9, "time above the limit");
    checks.judged(&one(0, 0), 10, "no time");
    let named = |length| LoadFile::new(1).flow(&vec![b'n'; length]);
    checks.judged(&named(31), 0, "name of 31 bytes");
    checks.judged(&named(32), 5, "name of 32 bytes");
}

/// 64 flows and 1,024 blocks, one more of either, the ten bytes, and E3's 57 bytes.
fn sizes(checks: &mut Checks) {
    let full = full_file(4);
    checks.judged(&full, 0, "64 flows and 1,024 blocks");
    checks.judged(&full.clone().flow(b""), 4, "65 flows");
    let more = full.block(0, 1_000_000_000, &[1, 1, 1, 1]);
    checks.judged(&more, 4, "1,025 blocks");
    let ten = [1, 0, 0, 0, 5, 1, 0, 0, 0, 0];
    checks.check(file::soundness(&ten) == 0, "the ten bytes");
    checks.check(ten_bytes().bytes() == ten, "the ten bytes as built");
    checks.check(e3_file().bytes().len() == 57, "E3 has 57 bytes");
    checks.judged(&e3_file(), 0, "E3");
}

/// E3's file by hand, byte for byte, and its table.
fn layout(checks: &mut Checks) {
    let mut bytes = vec![1, 0, 0, 0, 52, 2, 0, 1, 0, 3, 1, 65];
    for _ in 0..3 {
        bytes.extend([14, 0, 0, 0, 0, 0, 0, 0, 0, 0, 1, 0, 0, 0, 10]);
    }
    checks.check(e3_file().bytes() == bytes, "E3 byte for byte");
    let mut table = answer::table_before(20);
    let counts = Counts {
        stages: 2,
        flows: 1,
        blocks: 3,
    };
    let read = file::reader(&bytes, &mut table);
    checks.check(read == Ok(counts), "E3's counts");
    let block = [0, 0, 1, 10, 0, 0];
    let mut expected = block.repeat(3);
    expected.extend([4_000_000_018, 4_000_000_019]);
    checks.check(table == expected, "E3's table and the room beyond");
    let mut short = answer::table_before(17);
    checks.check(file::reader(&bytes, &mut short) == Err(7), "17 words");
    checks.check(short == answer::table_before(17), "17 words as before");
}

/// 9 also for a time at a stage that the load lacks, which a file can't hold but a table can.
fn lacking_stages(checks: &mut Checks) {
    for stages in 1..=4 {
        for stage in 0..4 {
            let mut times = [1, 0, 0, 0];
            times[stage] = 1;
            let block = Block {
                flow: 0,
                arrival: 0,
                times,
            };
            let counts = Counts {
                stages,
                flows: 1,
                blocks: 1,
            };
            let judged = file::judge_block(&block, &counts, None);
            let expected = if stage < stages { Ok(()) } else { Err(9) };
            checks.check(judged == expected, "a time at a lacking stage");
        }
    }
}

/// Where the shown part lies, empty parts too.
fn names(checks: &mut Checks) {
    let file = small_file().bytes();
    let nothing = Name::Standing(0..0);
    let list = b"\x01a\x02bc\x01d";
    checks.check(name(&file, list, 0) == Name::File(11..13), "own name");
    checks.check(name(&file, list, 1) == Name::Standing(3..5), "listed name");
    checks.check(name(&file, list, 2) == Name::File(15..16), "last name");
    checks.check(name(&file, list, 3) == nothing, "no such flow");
    checks.check(name(&file, &list[..4], 1) == nothing, "list too short");
    checks.check(name(&file[1..], list, 0) == nothing, "unsound file");
    let nameless = LoadFile::new(1).flow(b"").bytes();
    let after = Name::Standing(1..1);
    checks.check(name(&nameless, b"\x00", 0) == after, "entry of length 0");
    checks.check(name(&nameless, b"", 0) == nothing, "empty list");
}

/// The lines as they are to be printed.
fn lines(checks: &mut Checks) {
    let line = |bytes: &[u8]| {
        let cases = case::decode(bytes).expect("a good case file");
        answer::line(&answer::answer(&cases[0]))
    };
    let ten = [1, 0, 0, 0, 5, 1, 0, 0, 0, 0];
    let with = |head: &[u8]| [head, &ten].concat();
    let sound = with(&[1, 0, 0, 0, 0, 0, 0, 0, 0, 0, 0, 0, 10]);
    checks.check(line(&sound) == "sound 0", "line of soundness");
    let read = with(&[2, 0, 0, 0, 2, 0, 0, 0, 0, 0, 0, 0, 10]);
    let text = "read 0 1 0 0 4000000000 4000000001";
    checks.check(line(&read) == text, "line of the reader");
    let none = [2, 0, 0, 0, 0, 0, 0, 0, 0, 0, 0, 0, 0];
    checks.check(line(&none) == "read 1 0 0 0", "line of a refusal");
    let name = with(&[3, 0, 0, 0, 0, 0, 0, 0, 0, 0, 0, 0, 10]);
    checks.check(line(&name) == "name -", "line of an empty name");
    let digest = (2u32.wrapping_mul(16_777_619) + 3).wrapping_mul(16_777_619);
    checks.check(answer::digest(&[2, 3, 0]) == digest, "digest");
    let long = Answer::Read(Err(5), vec![1; 61]);
    let hashed = format!("read 5 0 0 0 #{}", answer::digest(&[1; 61]));
    checks.check(answer::line(&long) == hashed, "line of a long table");
    let hex = Answer::Name(Name::File(0..0), vec![0x0A, 0xFF]);
    checks.check(answer::line(&hex) == "name 0aff", "line of a name");
}

/// What the builder wrote is what the reader puts into the table.
fn read_back(checks: &mut Checks, made: &[Made]) {
    for stages in 1..=4 {
        let load = full_file(stages);
        let mut expected = Vec::new();
        for block in &load.blocks {
            let mut times = block.times.clone();
            times.resize(4, 0);
            expected.extend([u32::from(block.flow), block.arrival]);
            expected.extend(times);
        }
        let mut table = answer::table_before(load.words());
        let read = file::reader(&load.bytes(), &mut table);
        checks.check(read.is_ok() && table == expected, "read back");
    }
    // A refused call leaves every table as it was lent.
    for made in made {
        if let Answer::Read(Err(_), table) = answer::answer(&made.case) {
            let before = answer::table_before(made.case.number);
            checks.check(table == before, "a refused table");
        }
    }
}

/// What the maker of each case said.
fn expectations(checks: &mut Checks, made: &[Made]) {
    for (place, made) in made.iter().enumerate() {
        let good = match (&made.expected, answer::answer(&made.case)) {
            (Expected::Open, _) => continue,
            (Expected::Number(number), Answer::Sound(given)) => *number == given,
            (Expected::Number(number), Answer::Read(given, _)) => {
                *number == given.err().unwrap_or(0)
            }
            (Expected::Name(name), Answer::Name(_, given)) => *name == given,
            (Expected::Number(number), Answer::Plan(given)) => *number == given.number(),
            _ => false,
        };
        let line = answer::line(&answer::answer(&made.case));
        let what = format!("case {}: {:?}, not {}", place, made.expected, line);
        checks.check(good, &what);
    }
}

/// Every number that a call can give, and enough cases of the calls other than the plan.
fn contents(checks: &mut Checks, made: &[Made]) {
    let tally = Tally::of(made.iter().map(|made| &made.case));
    for number in 0..12 {
        let what = format!("cases for number {}", number);
        checks.check((tally.sound[number] > 0) == (number != 7), &what);
        checks.check(tally.read[number] > 0, &what);
    }
    checks.check(tally.name_empty > 0, "empty names");
    checks.check(tally.name_file > 0, "own names");
    checks.check(tally.name_standing > 0, "listed names");
    let others = made.iter().filter(|made| made.case.call != Call::Plan);
    checks.check(others.count() >= 2_600, "at least 2,600 other cases");
}

/// The case file can be read back, is small enough, and is refused where it's malformed.
fn case_file(checks: &mut Checks, made: &[Made]) {
    let all: Vec<&Case> = made.iter().map(|made| &made.case).collect();
    let bytes = case::encode(&all);
    let plans = all.iter().position(|case| case.call == Call::Plan);
    let (others, plans) = all.split_at(plans.unwrap_or(all.len()));
    let last = plans.iter().all(|case| case.call == Call::Plan);
    checks.check(last, "the plan cases come last");
    let sizes = (case::encode(others).len(), case::encode(plans).len());
    checks.check(sizes.0 <= 900_000, "size of the other cases");
    checks.check(sizes.1 <= 1_800_000, "size of the plan cases");
    let back = case::decode(&bytes).unwrap_or_default();
    let same = back.len() == all.len() && back.iter().zip(&all).all(|(a, &b)| a == b);
    checks.check(same, "the case file read back");
    checks.check(case::decode(&[]) == Ok(Vec::new()), "no cases");
    let bad: [&[u8]; 8] = [
        &bytes[..bytes.len() - 1],
        &[1, 0, 0, 0],
        &[0, 0, 0, 0, 0, 0, 0, 0, 0, 0, 0, 0, 0],
        &[4, 0, 0, 0, 0, 0, 0, 0, 0, 0, 0, 0, 0],
        &[5, 0, 0, 0, 0, 0, 0, 0, 0, 0, 0, 0, 0],
        &[1, 0, 0, 0, 1, 0, 0, 0, 0, 0, 0, 0, 0],
        &[2, 0, 0, 32, 1, 0, 0, 0, 0, 0, 0, 0, 0],
        &[2, 0, 0, 0, 0, 0, 0, 0, 1, 0, 0, 0, 0, 7],
    ];
    for bytes in bad {
        checks.check(case::decode(bytes).is_err(), "a malformed case file");
    }
}
