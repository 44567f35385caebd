//! The order of refusals: files with two and more faults at once, for every pair that can meet.

use crate::build::load_file::LoadFile;
use crate::build::samples::three_blocks;
use crate::cases::Cases;

pub fn add(cases: &mut Cases) {
    single_faults(cases);
    pairs(cases);
    all_from_one_on(cases);
    cut_flow_records(cases);
    cut_block_records(cases);
    wrong_version_of_other_sizes(cases);
}

/// A fault and, in brackets, the flow or block that has it.
#[derive(Clone, Copy)]
enum Fault {
    Version,
    LengthWord,
    StageCount,
    FlowCount,
    BlockCount,
    Table,
    NameLength(usize),
    NameByte(usize),
    BlockLength(usize),
    FlowNumber(usize),
    Arrival(usize),
    Time(usize),
    NoTime(usize),
    Before(usize),
    LeftOver,
}

use Fault::*;

/// All faults in the order in which document 01 has them tested.
fn in_order() -> Vec<Fault> {
    let mut all = vec![
        Version, LengthWord, StageCount, FlowCount, BlockCount, Table,
    ];
    for flow in 0..3 {
        all.extend([NameLength(flow), NameByte(flow)]);
    }
    for block in 0..3 {
        all.extend([BlockLength(block), FlowNumber(block)]);
        all.extend([Arrival(block), Time(block), NoTime(block)]);
        if block > 0 {
            all.push(Before(block));
        }
    }
    all.push(LeftOver);
    all
}

/// The number of document 01's table for a fault.
fn number(fault: Fault) -> u32 {
    match fault {
        Version => 1,
        LengthWord => 2,
        StageCount => 3,
        FlowCount | BlockCount => 4,
        NameLength(_) | BlockLength(_) | LeftOver => 5,
        NameByte(_) => 6,
        Table => 7,
        FlowNumber(_) => 8,
        Arrival(_) | Time(_) => 9,
        NoTime(_) => 10,
        Before(_) => 11,
    }
}

/// Puts a fault into the file of three blocks with two stages. It leaves the other faults in place,
/// but for one of the same block that uses the same field.
fn put(file: &mut LoadFile, fault: Fault) {
    match fault {
        Version => file.version = 2,
        LengthWord => file.length_word = Some(9),
        StageCount => file.stages = 5,
        FlowCount => file.flow_count = Some(65),
        BlockCount => file.block_count = Some(1_025),
        Table => {}
        NameLength(flow) => file.flows[flow].length = Some(32),
        NameByte(flow) => file.flows[flow].name[0] = 32,
        BlockLength(block) => file.blocks[block].length = Some(15),
        FlowNumber(block) => file.blocks[block].flow = 3,
        Arrival(block) => file.blocks[block].arrival = 1_000_000_001,
        Time(block) => file.blocks[block].times[1] = 10_000_001,
        NoTime(block) => file.blocks[block].times = vec![0, 0],
        // The arrivals are 10, 20 and 30.
        Before(block) => file.blocks[block].arrival = 10 * block as u32 - 1,
        LeftOver => file.left_over = vec![0],
    }
}

/// One block can't have a time above the limit and no time, nor arrive both above the limit and
/// before a block that is within it.
fn can_meet(one: Fault, other: Fault) -> bool {
    match (one, other) {
        (Time(a), NoTime(b)) | (Arrival(a), Before(b)) => a != b,
        _ => true,
    }
}

/// The faults are given in the order of the tests. They are put in from the last to the first, so
/// that the first stands where two use the same field. The first is the one to be found.
fn add_faults(cases: &mut Cases, faults: &[Fault]) {
    let mut file = three_blocks(2);
    for &fault in faults.iter().rev() {
        put(&mut file, fault);
    }
    let bytes = file.bytes();
    let short_table = faults.iter().any(|fault| matches!(fault, Table));
    cases.read(&bytes, if short_table { 17 } else { 18 }, number(faults[0]));
    let without_table = faults.iter().find(|fault| !matches!(fault, Table));
    cases.sound(&bytes, without_table.map_or(0, |&fault| number(fault)));
}

/// Each fault alone, so that it's known to be one.
fn single_faults(cases: &mut Cases) {
    for fault in in_order() {
        add_faults(cases, &[fault]);
    }
}

/// Every two faults that can meet.
fn pairs(cases: &mut Cases) {
    let all = in_order();
    for (place, &first) in all.iter().enumerate() {
        for &second in &all[place + 1..] {
            if can_meet(first, second) {
                add_faults(cases, &[first, second]);
            }
        }
    }
}

/// Each fault together with all later ones.
fn all_from_one_on(cases: &mut Cases) {
    let all = in_order();
    for place in 0..all.len() {
        add_faults(cases, &all[place..]);
    }
}

/// A name that is cut off is 5 even where the bytes that are left are wrong; a wrong byte in a
/// flow above it is 6.
fn cut_flow_records(cases: &mut Cases) {
    let names = LoadFile::new(2).flows(&["abc", "def", "ghi"]);
    for flow in 0..3 {
        let keep = names.flow_start(flow) + 3;
        let mut same = names.clone();
        same.flows[flow].name[0] = 0;
        cases.both(&same.cut(keep), 0, 5);
        if flow > 0 {
            let mut above = names.clone();
            above.flows[flow - 1].name[2] = 127;
            cases.both(&above.cut(keep), 0, 6);
        }
    }
}

/// A block that is cut off is 5 whatever is wrong in the bytes that are left; a fault of a block
/// above it comes first.
fn cut_block_records(cases: &mut Cases) {
    for block in 0..3 {
        let faults = [FlowNumber(block), Arrival(block), NoTime(block)];
        for fault in faults {
            let mut file = three_blocks(2);
            put(&mut file, fault);
            for later in block..3 {
                let keep = file.block_start(later + 1) - 1;
                let expected = if later == block { 5 } else { number(fault) };
                cases.both(&file.cut(keep), 18, expected);
            }
        }
    }
}

/// 1 comes before 2 also in files under ten bytes, and 2 before all that the bytes would say.
fn wrong_version_of_other_sizes(cases: &mut Cases) {
    for length in 2..10 {
        let mut file = LoadFile::new(0).cut(length);
        cases.both(&file, 0, 2);
        file[0] = 0;
        cases.both(&file, 0, 1);
    }
}
