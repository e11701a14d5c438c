//! The window program without proofs: written from the rules in words, for
//! speed, and sharing nothing with the proved one.

pub mod answer;
pub mod call;
pub mod judge;
pub mod label;
pub mod monitor;
pub mod numeral;
pub mod operation;
pub mod roster;
pub mod row;
pub mod run;
pub mod sheet;
pub mod table;
pub mod window;
