//! What the battery is given and has to write: a case and its form in the case file, its answer by
//! the rules, and the line that says it.

pub mod answer;
pub mod case;
pub mod count;
pub mod plan_case;
