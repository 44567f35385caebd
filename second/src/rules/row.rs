//! A row of the plan, 15 words of 64 bits, and what document 01 derives from the rows alone: the
//! flow records and the six counts.

use crate::rules::file::MOST_STAGES;

pub const ROW_WORDS: usize = 15;
/// The words of a row that stand before the stages.
const WORDS_BEFORE_STAGES: usize = 7;

/// A block's time at one stage: from start up to but without finish.
#[derive(Clone, Copy, Debug, Default, PartialEq, Eq)]
pub struct Span {
    pub start: u64,
    pub finish: u64,
}

#[derive(Clone, Copy, Debug, Default, PartialEq, Eq)]
pub struct Row {
    pub block: u64,
    pub flow: u64,
    pub round: u64,
    pub turn: u64,
    /// Before the block's dominant time is taken from it, so never below 0.
    pub balance: u64,
    pub hold: u64,
    /// From 1.
    pub dominant_stage: u64,
    /// All 0 for stages that the load lacks.
    pub spans: [Span; MOST_STAGES],
}

impl Row {
    pub fn words(&self) -> [u64; ROW_WORDS] {
        let [one, two, three, four] = self.spans;
        [
            self.block,
            self.flow,
            self.round,
            self.turn,
            self.balance,
            self.hold,
            self.dominant_stage,
            one.start,
            one.finish,
            two.start,
            two.finish,
            three.start,
            three.finish,
            four.start,
            four.finish,
        ]
    }

    pub fn read(words: &[u64]) -> Row {
        let mut spans = [Span::default(); MOST_STAGES];
        for (stage, span) in spans.iter_mut().enumerate() {
            span.start = words[WORDS_BEFORE_STAGES + 2 * stage];
            span.finish = words[WORDS_BEFORE_STAGES + 2 * stage + 1];
        }
        Row {
            block: words[0],
            flow: words[1],
            round: words[2],
            turn: words[3],
            balance: words[4],
            hold: words[5],
            dominant_stage: words[6],
            spans,
        }
    }

    /// The block's run at its dominant stage, which is as long as its dominant time.
    pub fn dominant_span(&self) -> Span {
        self.spans[self.dominant_stage as usize - 1]
    }

    pub fn dominant_time(&self) -> u64 {
        self.dominant_span().finish - self.dominant_span().start
    }
}

/// The rows of a table that holds nothing else.
pub fn read_all(table: &[u64]) -> impl Iterator<Item = Row> + '_ {
    table.chunks_exact(ROW_WORDS).map(Row::read)
}

/// Blocks listed, turns begun, and the sum of the listed blocks' dominant times.
pub type FlowRecord = [u64; 3];

/// Sets the record of every flow; a flow without rows gets zeros.
pub fn set_records(rows: &[u64], records: &mut [FlowRecord]) {
    records.fill([0; 3]);
    let mut turn = 0;
    for row in read_all(rows) {
        let record = &mut records[row.flow as usize];
        record[0] += 1;
        // The rows of a turn stand together, so a new number is a turn that begins.
        record[1] += u64::from(row.turn != turn);
        record[2] += row.dominant_time();
        turn = row.turn;
    }
}

/// What an accepted plan call answers.
#[derive(Clone, Copy, Debug, Default, PartialEq, Eq)]
pub struct PlanCounts {
    pub blocks: u64,
    pub turns: u64,
    pub rounds: u64,
    pub turns_held: u64,
    pub held_ticks: u64,
    pub end: u64,
}

impl PlanCounts {
    /// Turns and rounds are numbered from 1 without gaps, so the last row's number counts them.
    pub fn of(rows: &[u64], stages: usize) -> PlanCounts {
        let mut counts = PlanCounts::default();
        for row in read_all(rows) {
            counts.blocks += 1;
            counts.turns = row.turn;
            counts.rounds = row.round;
            counts.turns_held += u64::from(row.hold > 0);
            counts.held_ticks += row.hold;
            counts.end = row.spans[stages - 1].finish;
        }
        counts
    }

    /// In the order in which document 01 names them.
    pub fn words(&self) -> [u64; 6] {
        [
            self.blocks,
            self.turns,
            self.rounds,
            self.turns_held,
            self.held_ticks,
            self.end,
        ]
    }
}
