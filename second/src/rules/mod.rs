//! Document 01's rules: the load file, the name shown for a flow, the plan, and the program that
//! prints it. Nothing here knows of cases.

pub mod file;
pub mod listing;
pub mod name;
pub mod plan;
mod planner;
pub mod row;
mod stages;
mod waiting;
