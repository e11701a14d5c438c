//! Counts of answers by number, and of calls carried out by kind.

use std::collections::BTreeMap;
use std::fmt::{self, Display, Formatter};

use crate::plain::roster;

/// What an answer line says, as far as it is counted.
#[derive(Clone, Copy, Debug, PartialEq, Eq, PartialOrd, Ord)]
pub enum Kind {
    Lay,
    View,
    ViewNotZero,
    Run,
    RunWithTurns,
    Fault(u8),
}

/// Every kind that a window can give. Fault 6 is not among them: a window
/// takes one roster.
pub fn all_kinds() -> impl Iterator<Item = Kind> {
    let faults = (1..=5).chain(10..=14).chain(20..=28).chain(31..=33);
    [Kind::Lay, Kind::View, Kind::ViewNotZero, Kind::Run, Kind::RunWithTurns]
        .into_iter()
        .chain(faults.map(Kind::Fault))
}

impl Display for Kind {
    fn fmt(&self, formatter: &mut Formatter) -> fmt::Result {
        let text = match self {
            Kind::Lay => "lay done",
            Kind::View => "view done, 0",
            Kind::ViewNotZero => "view done, not 0",
            Kind::Run => "run done, no turns",
            Kind::RunWithTurns => "run done, with turns",
            Kind::Fault(number) => return formatter.pad(&format!("fault {number}")),
        };
        formatter.pad(text)
    }
}

#[derive(Clone, Debug, Default)]
pub struct Tally {
    counts: BTreeMap<Kind, usize>,
}

impl Tally {
    /// Counts the answers to an input.
    pub fn add(&mut self, input: &[u8], output: &[u8]) {
        let (_, calls) = roster::split(input);
        // A refused roster is answered though there may be no call line.
        let letters = lines(calls).map(|line| line.first().copied()).chain([None]);
        for (letter, answer) in letters.zip(lines(output)) {
            if let Some(kind) = kind(letter, answer) {
                *self.counts.entry(kind).or_default() += 1;
            }
        }
    }

    pub fn count(&self, kind: Kind) -> usize {
        self.counts.get(&kind).copied().unwrap_or(0)
    }

    pub fn total(&self) -> usize {
        self.counts.values().sum()
    }
}

fn kind(letter: Option<u8>, answer: &[u8]) -> Option<Kind> {
    let answer = str::from_utf8(answer).ok()?;
    let (number, _) = answer.split_once(',')?;
    let (_, value) = answer.trim_end().rsplit_once(',')?;
    match (number.parse().ok()?, letter) {
        (0, Some(b'L')) => Some(Kind::Lay),
        (0, Some(b'V')) if value == "0" => Some(Kind::View),
        (0, Some(b'V')) => Some(Kind::ViewNotZero),
        (0, Some(b'R')) if value == "0" => Some(Kind::Run),
        (0, Some(b'R')) => Some(Kind::RunWithTurns),
        (0, _) => None,
        (number, _) => Some(Kind::Fault(number)),
    }
}

/// The lines of a text with their ends.
pub fn lines(text: &[u8]) -> impl Iterator<Item = &[u8]> {
    text.split_inclusive(|&byte| byte == b'\n')
}

impl Display for Tally {
    fn fmt(&self, formatter: &mut Formatter) -> fmt::Result {
        for kind in all_kinds() {
            writeln!(formatter, "  {kind:<22}{:>10}", self.count(kind))?;
        }
        write!(formatter, "  {:<22}{:>10}", "all answers", self.total())
    }
}
