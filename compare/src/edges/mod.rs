//! Handwritten inputs at the edges of the rules, each with the output wanted.

mod lines;
mod operations;
mod rosters;
mod running;
mod sheets;

#[derive(Clone, Debug)]
pub struct Edge {
    pub name: String,
    pub input: Vec<u8>,
    pub wanted: Vec<u8>,
}

impl Edge {
    fn new(name: impl Into<String>, input: impl Into<Vec<u8>>, wanted: impl Into<Vec<u8>>) -> Self {
        Self { name: name.into(), input: input.into(), wanted: wanted.into() }
    }

    /// An edge behind the common roster.
    fn after_roster(name: &str, calls: &str, wanted: &str) -> Self {
        Self::new(name, format!("{ROSTER}{calls}"), wanted)
    }
}

/// Two people and slots, the one at the bottom and the other above it.
const ROSTER: &str = "P,0,0\nP,1,9\nS,0,0\nS,1,9\n";

pub fn all() -> Vec<Edge> {
    [rosters::all(), lines::all(), sheets::all(), operations::all(), running::all()].concat()
}
