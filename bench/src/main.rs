//! The planner's speed, beside a tight Rust program of the same rules. tools/bench builds and runs
//! this; its word is how many times each load is planned.
//!
//! First every program plans every load, and answers small calls that are often refused. Where one
//! gives another word than the tight program, that is said, and nothing is measured.

mod call;
mod calls;
mod check;
mod loads;
mod measure;
mod planner;
mod random;
mod second;
mod tight;

#[allow(dead_code)] // Of the second program only the plan call is needed here.
#[path = "../../second/src/rules/mod.rs"]
mod rules;

use std::io::{self, Write};

use call::{Program, MOST_BLOCKS};
use check::Compared;
use loads::{Shape, AT_ONCE, SHAPES, SIZES};

/// The others are compared with the first.
const PROGRAMS: [Program; 3] = [
    Program {
        name: "tight",
        plan: tight::plan,
    },
    Program {
        name: "planner",
        plan: planner::plan,
    },
    Program {
        name: "second",
        plan: second::plan,
    },
];

fn main() {
    let word = std::env::args().nth(1).unwrap_or_default();
    let repeats = match word.parse() {
        Ok(repeats) if repeats > 0 => repeats,
        _ => end(2, "use: bench REPEATS, at least 1"),
    };
    let compared = match check::all(&PROGRAMS) {
        Ok(compared) => compared,
        Err(difference) => end(1, &difference),
    };
    if let Err(message) = report(&compared, repeats) {
        end(2, &message);
    }
}

/// 1 is the exit status where a program differs, 2 where something else fails.
fn end(status: i32, message: &str) -> ! {
    eprintln!("bench: {}", message);
    std::process::exit(status)
}

fn report(compared: &Compared, repeats: usize) -> Result<(), String> {
    say(format!(
        "{} loads, whole and cut short by a limit: the same numbers, counts, records and rows",
        compared.loads
    ))?;
    say(format!(
        "{} small calls, {} of them refused: the same",
        compared.small, compared.refused
    ))?;
    say(format!(
        "\nMicroseconds for a plan, the median of {}, and times the tight program's\n",
        repeats
    ))?;
    shapes(repeats)?;
    growth(repeats)
}

/// Standard output may be a pipe whose reader is gone, of which `println` would make a panic.
fn say(line: String) -> Result<(), String> {
    writeln!(io::stdout(), "{}", line).map_err(|error| format!("cannot write: {}", error))
}

fn shapes(repeats: usize) -> Result<(), String> {
    say(head("1,024 blocks"))?;
    let mut ratios = Vec::new();
    for shape in &SHAPES {
        ratios.push(measured(shape.name, shape, MOST_BLOCKS, repeats)?);
    }
    ratios.sort_by(f64::total_cmp);
    say(format!(
        "\nThe planner by shapes: median {:.2}, least {:.2}, greatest {:.2}\n",
        measure::median(ratios.clone()),
        ratios[0],
        ratios[ratios.len() - 1]
    ))
}

fn growth(repeats: usize) -> Result<(), String> {
    say(head(AT_ONCE.name))?;
    for blocks in SIZES {
        measured(&format!("{} blocks", blocks), &AT_ONCE, blocks, repeats)?;
    }
    Ok(())
}

fn head(title: &str) -> String {
    format!(
        "{:26}{:>8}{:>9}{:>7}{:>9}{:>7}",
        title, "tight", "planner", "times", "second", "times"
    )
}

/// Prints a line, and answers how many times the tight program's time the planner takes.
fn measured(title: &str, shape: &Shape, blocks: usize, repeats: usize) -> Result<f64, String> {
    let taken = measure::microseconds(&PROGRAMS, &loads::make(shape, blocks), repeats);
    let (tight, planner, second) = (taken[0], taken[1], taken[2]);
    say(format!(
        "{:26}{:8.2}{:9.2}{:7.2}{:9.2}{:7.2}",
        title,
        tight,
        planner,
        planner / tight,
        second,
        second / tight
    ))?;
    Ok(planner / tight)
}
