//! What cases and files are built from: load files and loads, made part by part or at random, and
//! those that several groups share.

pub mod examples;
pub mod load_file;
pub mod loads;
pub mod plan_load;
pub mod random;
pub mod random_files;
pub mod samples;
pub mod unfair;
pub mod unfair_found;
