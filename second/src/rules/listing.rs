//! Document 01's printing program: what it prints for its input.

use crate::rules::file::{self, Counts, Refusal, BLOCK_WORDS, MOST_BLOCKS};
use crate::rules::name;
use crate::rules::plan::{self, Asked};
use crate::rules::row::{self, Row, ROW_WORDS};

/// The program takes at most so many bytes, the first ones.
const MOST_BYTES: usize = 65_536;
/// It asks for the first so many blocks.
const MOST_ROWS: usize = 512;
/// It has an empty standing list.
const STANDING: &[u8] = &[];

/// All that is printed; every line ends with a newline.
pub fn text(input: &[u8]) -> String {
    let file = &input[..input.len().min(MOST_BYTES)];
    match lines(file) {
        Ok(lines) => lines,
        Err(number) => format!("refused {}\n", number),
    }
}

/// The line of the six counts, then one line a row.
fn lines(file: &[u8]) -> Result<String, Refusal> {
    // The tables are long enough for every load, so nothing is refused by 7.
    let mut table = vec![0; BLOCK_WORDS * MOST_BLOCKS];
    let counts = file::reader(file, &mut table)?;
    let mut records = vec![[0; 3]; counts.flows];
    let mut rows = vec![0; ROW_WORDS * MOST_ROWS];
    let asked = Asked {
        limit: MOST_ROWS as u64,
        stages: counts.stages as u64,
        flows: counts.flows as u64,
        blocks: counts.blocks as u64,
    };
    let planned = plan::plan(&asked, &table, &mut records, &mut rows)?;
    let mut lines = line(planned.words().iter().map(u64::to_string));
    for row in row::read_all(&rows).take(planned.blocks as usize) {
        lines.push_str(&line(row_fields(file, &counts, &row)));
    }
    Ok(lines)
}

/// The name, block, round, turn, balance, hold and dominant stage, then start and finish for each
/// stage that the load has.
fn row_fields(file: &[u8], counts: &Counts, row: &Row) -> impl Iterator<Item = String> {
    let numbers = [
        row.block,
        row.round,
        row.turn,
        row.balance,
        row.hold,
        row.dominant_stage,
    ];
    let mut fields = vec![shown_name(file, row.flow as u32)];
    fields.extend(numbers.iter().map(u64::to_string));
    for span in &row.spans[..counts.stages] {
        fields.push(format!("{}-{}", span.start, span.finish));
    }
    fields.into_iter()
}

/// The name shown for a flow, or - if it's empty. The bytes of a file's own names are 33 to 126.
fn shown_name(file: &[u8], flow: u32) -> String {
    let shown = name::name(file, STANDING, flow);
    let bytes = shown.bytes(file, STANDING);
    if bytes.is_empty() {
        return "-".to_string();
    }
    bytes.iter().map(|&byte| char::from(byte)).collect()
}

/// One space between fields, and the line's end.
fn line(fields: impl Iterator<Item = String>) -> String {
    let fields: Vec<String> = fields.collect();
    fields.join(" ") + "\n"
}
