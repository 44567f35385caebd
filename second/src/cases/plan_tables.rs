//! The three tables lent to the plan call: exactly long enough, too short (7) and longer, with
//! room and blocks beyond what is asked for; and counts for which no table can be long enough.

use crate::battery::plan_case::{MOST_RECORDS, MOST_ROW_WORDS};
use crate::build::loads;
use crate::build::plan_load::{PlanLoad, ALL};
use crate::build::random::Random;
use crate::cases::Cases;

pub fn add(cases: &mut Cases) {
    let mut random = Random::new(20_240_103);
    block_table(cases, &mut random);
    flow_table(cases, &mut random);
    row_table(cases, &mut random);
    row_table_of_a_limit(cases, &mut random);
    several_tables_short(cases, &mut random);
    blocks_beyond_the_count(cases, &mut random);
    edge_of_the_digest(cases, &mut random);
    huge_counts(cases, &mut random);
    largest_tables(cases);
}

fn block_table(cases: &mut Cases, random: &mut Random) {
    for blocks in 1..=4 {
        for _ in 0..3 {
            let case = loads::lively(random, blocks).ask(ALL);
            let needed = case.table.len();
            for words in [0, 1, needed - 6, needed - 5, needed - 1] {
                cases.plan(&case.with_table_words(words), 7);
            }
            for words in [needed, needed + 1, needed + 5, needed + 6, needed + 13] {
                cases.plan(&case.with_table_words(words), 0);
            }
        }
    }
}

/// Records beyond the flow count are left as found, and those of flows without blocks are set.
fn flow_table(cases: &mut Cases, random: &mut Random) {
    for flows in [1, 2, 3, 7, 19, 20, 21, 63, 64] {
        let mut load = loads::lively(random, 3);
        load.flows = load.flows.max(flows);
        let needed = load.flows as u32;
        let case = load.ask(ALL);
        for records in [0, needed / 2, needed - 1] {
            cases.plan(&case.with_records(records), 7);
        }
        for records in [needed, needed + 1, needed + 3, MOST_RECORDS] {
            cases.plan(&case.with_records(records), 0);
        }
    }
}

/// Row words beyond the rows are left as found.
fn row_table(cases: &mut Cases, random: &mut Random) {
    for blocks in [1, 2, 3, 4, 9] {
        for limit in [blocks as u64, ALL] {
            let case = loads::lively(random, blocks).ask(limit);
            let needed = case.row_words;
            for row_words in [0, 1, 14, needed - 15, needed - 1] {
                let row_words = row_words.min(needed - 1);
                cases.plan(&case.with_row_words(row_words), 7);
            }
            for row_words in [needed, needed + 1, needed + 14, needed + 15, needed + 40] {
                cases.plan(&case.with_row_words(row_words), 0);
            }
        }
    }
}

/// Only the rows that will be listed need room.
fn row_table_of_a_limit(cases: &mut Cases, random: &mut Random) {
    for blocks in [2, 5, 8] {
        for limit in [0, 1, 2, 3, 4] {
            let case = loads::lively(random, blocks).ask(limit);
            let needed = case.row_words;
            for row_words in [needed, needed + 1, needed + 15] {
                cases.plan(&case.with_row_words(row_words), 0);
            }
            if needed > 0 {
                cases.plan(&case.with_row_words(needed - 1), 7);
            }
        }
    }
}

/// Every choice of the three tables is short by one, and the rest exactly long enough.
fn several_tables_short(cases: &mut Cases, random: &mut Random) {
    for stages in 1..=4 {
        let mut load = loads::lively(random, 3);
        load.stages = stages.max(load.stages);
        for choice in 0..8 {
            let mut case = load.ask(ALL);
            if choice & 1 != 0 {
                case.table.pop();
            }
            case.records -= choice >> 1 & 1;
            case.row_words -= choice >> 2 & 1;
            cases.plan(&case, if choice == 0 { 0 } else { 7 });
        }
    }
}

/// Blocks that stand in the table beyond the block count aren't looked at, whether they are good
/// ones, out of order, or no blocks at all.
fn blocks_beyond_the_count(cases: &mut Cases, random: &mut Random) {
    for count in 0..=4 {
        let load = loads::lively(random, count + 2);
        let whole = load.ask(ALL);
        for beyond in [None, Some(0), Some(u32::MAX)] {
            let mut case = whole.clone();
            case.asked.blocks = count as u64;
            if let Some(word) = beyond {
                case.table[6 * count..].fill(word);
            }
            cases.plan(&case, 0);
            case.row_words = 15 * count as u32;
            cases.plan(&case, 0);
            case.asked.limit = 2;
            cases.plan(&case, 0);
        }
    }
}

/// Tables of about 60 words, where the line turns to the digest: 20 flow records and 4 rows.
fn edge_of_the_digest(cases: &mut Cases, random: &mut Random) {
    for records in [19, 20, 21, 22] {
        for row_words in [45, 59, 60, 61, 62, 75] {
            let mut load = loads::lively(random, 4);
            load.flows = 19;
            let case = load.ask(ALL).with_records(records);
            let number = if row_words < 60 { 7 } else { 0 };
            cases.plan(&case.with_row_words(row_words), number);
        }
    }
}

/// Counts that would be small, or need no room, if only some of their bits counted or if a
/// product went round.
const HUGE_COUNTS: [u64; 11] = [
    1_025,
    1 << 16,
    1 << 31,
    1 << 32,
    (1 << 32) + 2,
    0x1111_1111_1111_1112,
    0x2AAA_AAAA_AAAA_AAAB,
    0x5555_5555_5555_5556,
    1 << 62,
    1 << 63,
    u64::MAX,
];

/// 4 for huge counts of blocks and flows, 3 for huge stage counts, in tables of any length.
fn huge_counts(cases: &mut Cases, random: &mut Random) {
    for &count in &HUGE_COUNTS {
        let case = loads::lively(random, 2).ask(ALL);
        let nothing_lent = case.with_records(0).with_row_words(0).with_table_words(0);
        for mut case in [case, nothing_lent] {
            let asked = case.asked;
            case.asked.blocks = count;
            cases.plan(&case, 4);
            case.asked.limit = 0;
            cases.plan(&case, 4);
            case.asked.flows = count;
            cases.plan(&case, 4);
            case.asked = asked;
            case.asked.flows = count;
            cases.plan(&case, 4);
            case.asked.stages = count;
            cases.plan(&case, 3);
        }
    }
}

/// As much as a case can lend, for a load that needs nearly nothing of it and for one that needs
/// more records than there are.
fn largest_tables(cases: &mut Cases) {
    let load = PlanLoad::new(3, 2)
        .block(1, 8, &[2, 0, 5])
        .block(0, 9, &[1, 1, 1]);
    let mut case = load.ask(ALL).with_table_words(8_192);
    case.records = MOST_RECORDS;
    case.row_words = MOST_ROW_WORDS;
    cases.plan(&case, 0);
    case.asked.limit = 1;
    cases.plan(&case, 0);
    case.records = 1;
    case.table.truncate(12);
    cases.plan(&case, 7);
}
