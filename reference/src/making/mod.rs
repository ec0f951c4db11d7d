//! Makes rows of cases from a seed.

pub mod census;
pub mod demands;
pub mod jobs;
pub mod lines;
pub mod numbers;
pub mod proposals;
pub mod row;
pub mod samples;
pub mod sheets;
pub mod slips;
pub mod spoils;
