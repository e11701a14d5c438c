//! The strike-out: a label is chosen, the calls of people who are not at or
//! below it are struck out, and nobody at or below it may tell.

use crate::inputs::attack;
use crate::inputs::calls;
use crate::inputs::listing::{Code, Listing};
use crate::inputs::sheet::value;
use crate::plain::call::Call;
use crate::plain::label::Label;
use crate::plain::table::PEOPLE;
use crate::random::SplitMix64;
use crate::rows::run_line;
use crate::tally::lines;

/// An accepted roster and call lines, each marked as struck out or not.
#[derive(Clone, Debug)]
pub struct Trial {
    roster: Vec<u8>,
    calls: Vec<Marked>,
}

#[derive(Clone, Debug)]
struct Marked {
    line: Vec<u8>,
    struck: bool,
}

impl Trial {
    pub fn random(random: &mut SplitMix64) -> Self {
        let mut listing = Listing::random(random);
        listing.people.truncate(PEOPLE - 1);
        let chosen = chosen_label(&listing, random);
        let mut text = calls::first_lays(&listing, random);
        text.extend(some_calls(&listing, random));
        text.extend(secret_lays(&listing, chosen.label, random));
        text.extend(attacks(&listing, chosen.label, random));
        text.extend(some_calls(&listing, random));
        let mut calls: Vec<Marked> = lines(&text)
            // With the lines before it struck out, such a line would belong
            // to the roster.
            .filter(|line| !matches!(line.first(), Some(b'P' | b'S')))
            .map(|line| Marked {
                struck: is_struck(line, &listing, chosen.label),
                line: line.to_vec(),
            })
            .collect();
        calls.extend(watch(&mut listing, chosen));
        Self { roster: listing.text(random), calls }
    }

    /// How many calls are struck out.
    pub fn struck(&self) -> usize {
        self.calls.iter().filter(|call| call.struck).count()
    }

    /// The input with all calls.
    pub fn with(&self) -> Vec<u8> {
        self.text(|_| true)
    }

    /// The input without the struck calls.
    pub fn without(&self) -> Vec<u8> {
        self.text(|call| !call.struck)
    }

    fn text(&self, kept: impl Fn(&Marked) -> bool) -> Vec<u8> {
        let kept = self.calls.iter().filter(|call| kept(call));
        let lines = kept.map(|call| call.line.as_slice());
        [self.roster.as_slice()].into_iter().chain(lines).collect::<Vec<_>>().concat()
    }

    /// Whether there is one answer to each call.
    pub fn is_complete(&self, with: &[u8]) -> bool {
        lines(with).count() == self.calls.len()
    }

    /// From the answers to all calls, those to the calls that remain.
    pub fn remaining(&self, with: &[u8]) -> Vec<u8> {
        lines(with)
            .zip(&self.calls)
            .filter(|(_, call)| !call.struck)
            .flat_map(|(answer, _)| answer)
            .copied()
            .collect()
    }

    /// How many struck lays and runs were carried out while they were there.
    pub fn carried_out(&self, with: &[u8]) -> usize {
        lines(with)
            .zip(&self.calls)
            .filter(|(_, call)| call.struck && !call.line.starts_with(b"V"))
            .filter(|(answer, _)| answer.starts_with(b"0,"))
            .count()
    }
}

/// Mostly a label that somebody or something has, and with it somebody who is
/// not at or below it.
fn chosen_label(listing: &Listing, random: &mut SplitMix64) -> Code {
    let entries = listing.people.iter().chain(&listing.slots);
    let lower: Vec<Code> = entries
        .map(|&(_, code)| code)
        .filter(|code| listing.people.iter().any(|(_, other)| !other.label.flows_to(code.label)))
        .collect();
    match random.among(&lower) {
        Some(code) if random.chance(85) => code,
        _ => Code::random(random),
    }
}

fn some_calls(listing: &Listing, random: &mut SplitMix64) -> Vec<u8> {
    (0..random.below(12)).flat_map(|_| calls::line(listing, random)).collect()
}

/// Lays by people who are not at or below a label, wherever they may.
fn secret_lays(listing: &Listing, chosen: Label, random: &mut SplitMix64) -> Vec<u8> {
    let mut text = String::new();
    for (slot, code) in listing.slots.iter().take(16) {
        let layers =
            listing.people_where(|label| !label.flows_to(chosen) && label.flows_to(code.label));
        if let Some(person) = random.among(&layers) {
            text += &format!("L,{person},{slot},{}\n", value(random));
        }
    }
    text.into_bytes()
}

/// Runs by people at or below a label that would bring secrets down.
fn attacks(listing: &Listing, chosen: Label, random: &mut SplitMix64) -> Vec<u8> {
    let runners = listing.people_where(|label| label.flows_to(chosen));
    let mut text = String::new();
    for _ in 0..random.below(4) {
        let Some(person) = random.among(&runners) else { break };
        let label = listing.label_of(person).unwrap_or_default();
        if let Some(rows) = attack::rows(listing, label, random) {
            text += &run_line(person, 3, &rows);
        }
    }
    text.into_bytes()
}

/// Whether a line is a call of a listed person not at or below a label.
fn is_struck(line: &[u8], listing: &Listing, chosen: Label) -> bool {
    line.strip_suffix(b"\n")
        .and_then(Call::parse)
        .and_then(|call| listing.label_of(call.person()))
        .is_some_and(|label| !label.flows_to(chosen))
}

/// Lists one more person with the chosen label, and lets that person look at
/// every slot at the end.
fn watch(listing: &mut Listing, chosen: Code) -> Vec<Marked> {
    let free = (0..PEOPLE as u8).find(|&person| listing.label_of(person).is_none());
    let watcher = free.unwrap_or(0);
    listing.people.push((watcher, chosen));
    listing
        .slots
        .iter()
        .map(|(slot, _)| Marked {
            line: format!("V,{watcher},{slot}\n").into_bytes(),
            struck: false,
        })
        .collect()
}
