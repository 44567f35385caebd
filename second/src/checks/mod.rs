//! What plans promise, checked on their rows alone: document 01's demands of the rows, at most two
//! turns of a flow under way, and fairness.

pub mod fair;
mod plan;
pub mod services;
pub mod turns;
