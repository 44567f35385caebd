//! The answer to a case, by document 01, and the line that says it.

use std::fmt::{Display, Write};

use crate::battery::case::{Call, Case};
use crate::battery::plan_case::PlanCase;
use crate::rules::file::{self, Counts, Refusal};
use crate::rules::name::{self, Name};
use crate::rules::plan;
use crate::rules::row::{FlowRecord, PlanCounts};

/// Tables of more words than this are shown by a digest.
pub const MOST_WORDS_SHOWN: usize = 60;
/// What word 0 of a lent table holds before the call; word i holds i more. These are the block
/// table of the reader, the flow table and the row table.
const FIRST_WORD_BEFORE: u32 = 4_000_000_000;
const FIRST_RECORD_WORD_BEFORE: u64 = 5_000_000_000;
const FIRST_ROW_WORD_BEFORE: u64 = 6_000_000_000;

pub enum Answer {
    Sound(Refusal),
    /// The counts or the refusal, and the lent table after the call.
    Read(Result<Counts, Refusal>, Vec<u32>),
    /// Where the part lies, and its bytes.
    Name(Name, Vec<u8>),
    Plan(Planned),
}

/// The counts or the refusal, and the lent tables after the call.
pub struct Planned {
    pub result: Result<PlanCounts, Refusal>,
    pub records: Vec<FlowRecord>,
    pub rows: Vec<u64>,
}

impl Planned {
    /// 0 if the call was accepted.
    pub fn number(&self) -> Refusal {
        self.result.err().unwrap_or(0)
    }
}

pub fn answer(case: &Case) -> Answer {
    match case.call {
        Call::Soundness => Answer::Sound(file::soundness(&case.file)),
        Call::Reader => {
            let mut table = table_before(case.number);
            let result = file::reader(&case.file, &mut table);
            Answer::Read(result, table)
        }
        Call::Name => {
            let name = name::name(&case.file, &case.standing, case.number);
            let bytes = name.bytes(&case.file, &case.standing).to_vec();
            Answer::Name(name, bytes)
        }
        Call::Plan => Answer::Plan(planned(&PlanCase::of(case).expect("a judged case"))),
    }
}

pub fn planned(case: &PlanCase) -> Planned {
    let mut records = records_before(case.records);
    let mut rows = rows_before(case.row_words);
    let result = plan::plan(&case.asked, &case.table, &mut records, &mut rows);
    Planned {
        result,
        records,
        rows,
    }
}

/// A table as it is lent: no two words alike, and none that a block could hold in its place.
pub fn table_before(words: u32) -> Vec<u32> {
    (0..words).map(|i| FIRST_WORD_BEFORE + i).collect()
}

/// A flow table as it is lent: no two words alike.
pub fn records_before(records: u32) -> Vec<FlowRecord> {
    let first = |i: u64| FIRST_RECORD_WORD_BEFORE + 3 * i;
    (0..u64::from(records))
        .map(|i| [first(i), first(i) + 1, first(i) + 2])
        .collect()
}

/// A row table as it is lent: no two words alike.
pub fn rows_before(words: u32) -> Vec<u64> {
    (0..u64::from(words))
        .map(|i| FIRST_ROW_WORD_BEFORE + i)
        .collect()
}

/// The line of an answer, without its line end.
pub fn line(answer: &Answer) -> String {
    match answer {
        Answer::Sound(number) => format!("sound {}", number),
        Answer::Read(Ok(counts), table) => format!(
            "read 0 {} {} {}{}",
            counts.stages,
            counts.flows,
            counts.blocks,
            table_text(table, digest)
        ),
        Answer::Read(Err(number), table) => {
            format!("read {} 0 0 0{}", number, table_text(table, digest))
        }
        Answer::Name(_, bytes) => format!("name {}", hex(bytes)),
        Answer::Plan(planned) => plan_line(planned),
    }
}

fn plan_line(planned: &Planned) -> String {
    // A refusal has counts of 0.
    let counts = planned.result.unwrap_or_default();
    format!(
        "plan {}{} |{} |{}",
        planned.number(),
        words_text(&counts.words()),
        table_text(&planned.records.concat(), long_digest),
        table_text(&planned.rows, long_digest)
    )
}

/// The words of a table, or their digest where there are too many.
fn table_text<Word: Display>(table: &[Word], digest: fn(&[Word]) -> u32) -> String {
    if table.len() > MOST_WORDS_SHOWN {
        return format!(" #{}", digest(table));
    }
    words_text(table)
}

/// Each word in decimal, a space before it.
fn words_text<Word: Display>(words: &[Word]) -> String {
    words.iter().map(|word| format!(" {}", word)).collect()
}

/// h = (h * 16777619 + w) mod 2^32 over the words in order, from 0.
pub fn digest(table: &[u32]) -> u32 {
    table.iter().fold(0, |h, &word| mix(h, word))
}

/// The same where a word has 64 bits: its low half goes in first, then its high half.
pub fn long_digest(table: &[u64]) -> u32 {
    table
        .iter()
        .fold(0, |h, &word| mix(mix(h, word as u32), (word >> 32) as u32))
}

fn mix(h: u32, word: u32) -> u32 {
    h.wrapping_mul(16_777_619).wrapping_add(word)
}

fn hex(bytes: &[u8]) -> String {
    if bytes.is_empty() {
        return "-".to_string();
    }
    let mut text = String::new();
    for byte in bytes {
        write!(text, "{:02x}", byte).expect("a string takes all text");
    }
    text
}
