//! A case and the binary form of the case file: big-endian, one case after the other.

use crate::battery::plan_case::PlanCase;

#[derive(Clone, Copy, Debug, PartialEq, Eq)]
pub enum Call {
    Soundness,
    Reader,
    Name,
    Plan,
}

/// The longest file and the longest standing list of a case.
pub const MOST_BYTES: u32 = 65_536;
/// The largest block table of a case, in words.
pub const MOST_WORDS: u32 = 8_192;

#[derive(Clone, Debug, PartialEq, Eq)]
pub struct Case {
    pub call: Call,
    /// Words of the lent table (reader), flow number (name), 0 (soundness and plan).
    pub number: u32,
    /// The standing list (name), the parameters (plan), nothing (soundness and reader).
    pub standing: Vec<u8>,
    /// The file; for the plan call the block table in place of one.
    pub file: Vec<u8>,
}

/// The case file that holds these cases.
pub fn encode(cases: &[&Case]) -> Vec<u8> {
    let mut out = Vec::new();
    for case in cases {
        out.push(match case.call {
            Call::Soundness => 1,
            Call::Reader => 2,
            Call::Name => 3,
            Call::Plan => 4,
        });
        out.extend_from_slice(&case.number.to_be_bytes());
        out.extend_from_slice(&(case.standing.len() as u32).to_be_bytes());
        out.extend_from_slice(&(case.file.len() as u32).to_be_bytes());
        out.extend_from_slice(&case.standing);
        out.extend_from_slice(&case.file);
    }
    out
}

/// The cases of a case file, or what is wrong with it.
pub fn decode(bytes: &[u8]) -> Result<Vec<Case>, String> {
    let mut cases = Vec::new();
    let mut rest = bytes;
    while !rest.is_empty() {
        let at = bytes.len() - rest.len();
        let case = decode_one(&mut rest)
            .map_err(|what| format!("case {} at byte {}: {}", cases.len(), at, what))?;
        cases.push(case);
    }
    Ok(cases)
}

fn decode_one(rest: &mut &[u8]) -> Result<Case, String> {
    let call = match take(rest, 1)?[0] {
        1 => Call::Soundness,
        2 => Call::Reader,
        3 => Call::Name,
        4 => Call::Plan,
        other => return Err(format!("no call has the number {}", other)),
    };
    let number = take_word(rest)?;
    let standing_length = take_word(rest)?;
    let file_length = take_word(rest)?;
    if standing_length > MOST_BYTES || file_length > MOST_BYTES {
        return Err("a length is above 65,536".to_string());
    }
    let case = Case {
        call,
        number,
        standing: take(rest, standing_length as usize)?.to_vec(),
        file: take(rest, file_length as usize)?.to_vec(),
    };
    judge(&case)?;
    Ok(case)
}

/// What each call asks of its case.
fn judge(case: &Case) -> Result<(), String> {
    let listless = matches!(case.call, Call::Soundness | Call::Reader);
    if listless && !case.standing.is_empty() {
        return Err("only the name and the plan call have a standing part".to_string());
    }
    let numberless = matches!(case.call, Call::Soundness | Call::Plan);
    if numberless && case.number != 0 {
        return Err("the soundness and the plan call have the number 0".to_string());
    }
    if case.call == Call::Reader && case.number > MOST_WORDS {
        return Err("a table has at most 8,192 words".to_string());
    }
    if case.call == Call::Plan {
        PlanCase::of(case)?;
    }
    Ok(())
}

/// The next bytes, taken off the front.
fn take<'a>(rest: &mut &'a [u8], count: usize) -> Result<&'a [u8], String> {
    if rest.len() < count {
        return Err("the case file ends within a case".to_string());
    }
    let (front, back) = rest.split_at(count);
    *rest = back;
    Ok(front)
}

fn take_word(rest: &mut &[u8]) -> Result<u32, String> {
    let b = take(rest, 4)?;
    Ok(u32::from_be_bytes([b[0], b[1], b[2], b[3]]))
}
