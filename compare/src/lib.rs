//! A plain window program, and what is needed to compare it with the proved
//! one and to time the two.

pub mod differences;
pub mod edges;
pub mod inputs;
pub mod measure;
pub mod plain;
pub mod program;
pub mod random;
pub mod rows;
pub mod strike;
pub mod tally;
pub mod workloads;
