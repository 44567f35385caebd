//! The second program, from documents 01 and 02 alone. It makes the file of cases for the four calls
//! (soundness, reader, name, plan) and says what the line of each case must be; and it makes files
//! for the printing program and says what that must print. Commands:
//!
//!   cases           the file of cases
//!   answers         the line of each case of a file of cases, which it reads
//!   count           how often each answer is given in a file of cases, which it reads
//!   test            the self-tests
//!   fair            checks what the plans of the cases promise
//!   files FOLDER    writes the files for the printing program into a folder
//!   listing         what has to be printed for a file, which it reads
//!
//! The folders, of which each uses those above it:
//!
//!   rules      the documents' rules
//!   battery    a case, its form in the case file, its answer and the answer's line
//!   build      load files and loads, made part by part or at random
//!   checks     what plans promise, checked on their rows
//!   cases      the cases
//!   files      the files for the printing program
//!   tests      the self-tests

mod battery;
mod build;
mod cases;
mod checks;
mod files;
mod rules;
mod tests;

use std::fs;
use std::io::{self, BufWriter, Read, Write};

use battery::case::{self, Case};
use battery::{answer, count};
use checks::fair;
use rules::listing;

const USE: &str = "use: second cases | answers | count | test | fair | files FOLDER | listing";

fn main() {
    let command = std::env::args().nth(1).unwrap_or_default();
    let done = match command.as_str() {
        "cases" => write_cases(),
        "answers" => write_answers(),
        "count" => write_count(),
        "test" => run_tests(),
        "fair" => check_fairness(),
        "files" => write_files(),
        "listing" => write_listing(),
        _ => Err(USE.to_string()),
    };
    if let Err(message) = done {
        eprintln!("second: {}", message);
        std::process::exit(1);
    }
}

/// Everything goes out through one buffer, flushed here so that a write error isn't lost.
fn write_out(bytes: &[u8]) -> Result<(), String> {
    let mut out = BufWriter::new(io::stdout());
    out.write_all(bytes)
        .and_then(|()| out.flush())
        .map_err(|error| format!("cannot write: {}", error))
}

fn read_in() -> Result<Vec<u8>, String> {
    let mut bytes = Vec::new();
    io::stdin()
        .read_to_end(&mut bytes)
        .map_err(|error| format!("cannot read: {}", error))?;
    Ok(bytes)
}

/// The whole case file is read and judged before the first line is written.
fn read_cases() -> Result<Vec<Case>, String> {
    case::decode(&read_in()?)
}

fn write_cases() -> Result<(), String> {
    let made = cases::all();
    let cases: Vec<&Case> = made.iter().map(|made| &made.case).collect();
    write_out(&case::encode(&cases))
}

fn write_answers() -> Result<(), String> {
    let mut lines = String::new();
    for case in read_cases()? {
        lines.push_str(&answer::line(&answer::answer(&case)));
        lines.push('\n');
    }
    write_out(lines.as_bytes())
}

fn write_count() -> Result<(), String> {
    let text = count::text(&read_cases()?);
    write_out(text.as_bytes())
}

fn run_tests() -> Result<(), String> {
    let done = tests::run()?;
    write_out(format!("{} tests ok\n", done).as_bytes())
}

fn check_fairness() -> Result<(), String> {
    let made = cases::all();
    let text = fair::text(made.iter().map(|made| &made.case))?;
    write_out(text.as_bytes())
}

/// The files for the printing program, into a folder that is there; their names begin with their
/// number, from 1.
fn write_files() -> Result<(), String> {
    let folder = std::env::args().nth(2).ok_or(USE)?;
    for (place, file) in files::all().iter().enumerate() {
        let path = format!("{}/{:03}-{}.load", folder, place + 1, file.name);
        fs::write(&path, &file.bytes)
            .map_err(|error| format!("cannot write {}: {}", path, error))?;
    }
    Ok(())
}

/// What the printing program has to print for this input.
fn write_listing() -> Result<(), String> {
    write_out(listing::text(&read_in()?).as_bytes())
}
