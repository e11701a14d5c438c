//! Random call lines.

use super::attack;
use super::damage;
use super::listing::Listing;
use super::sheet::{Manner, Writer, value};
use crate::plain::label::Label;
use crate::random::SplitMix64;
use crate::rows::{Bytes, hex};

/// Fields that no person or slot has, in and out of the range of bytes.
const NOBODY: [&str; 10] = [
    "16",
    "17",
    "63",
    "64",
    "100",
    "255",
    "256",
    "65535",
    "18446744073709551616",
    "340282366920938463463374607431768211456",
];

/// A call line with its end, now and then damaged.
pub fn line(listing: &Listing, random: &mut SplitMix64) -> Vec<u8> {
    let mut line = match random.below(20) {
        0..=4 => lay(listing, random),
        5..=7 => view(listing, random),
        _ => run(listing, random),
    }
    .into_bytes();
    if random.chance(4) {
        damage::text(&mut line, random);
    }
    line.push(b'\n');
    line
}

/// Lays into the slots by people who may, so that the first values are not
/// all 0.
pub fn first_lays(listing: &Listing, random: &mut SplitMix64) -> Vec<u8> {
    let mut text = String::new();
    for (slot, code) in listing.slots.iter().take(16) {
        let layers = listing.people_where(|label| label.flows_to(code.label));
        if let Some(person) = random.among(&layers) {
            text += &format!("L,{person},{slot},{}\n", value(random));
        }
    }
    text.into_bytes()
}

/// Views of all listed slots by one person, mostly one who sees most.
pub fn last_views(listing: &Listing, random: &mut SplitMix64) -> Vec<u8> {
    let seen = |label: Label| listing.slots_where(|slot| slot.flows_to(label)).len();
    let best = listing.people.iter().max_by_key(|(_, code)| seen(code.label));
    let viewer = match best {
        Some(&(person, _)) if random.chance(80) => person.to_string(),
        _ => person(listing, random),
    };
    let mut slots = listing.slots_where(|_| true);
    slots.sort_unstable();
    // All of a full listing would crowd out the rest of the answers.
    slots.truncate(16);
    slots.iter().map(|slot| format!("V,{viewer},{slot}\n")).collect::<String>().into_bytes()
}

fn person(listing: &Listing, random: &mut SplitMix64) -> String {
    number(&listing.people_where(|_| true), 16, random)
}

fn slot(listing: &Listing, random: &mut SplitMix64) -> String {
    number(&listing.slots_where(|_| true), 64, random)
}

fn number(listed: &[u8], limit: usize, random: &mut SplitMix64) -> String {
    match random.below(40) {
        0 => random.pick(NOBODY).to_owned(),
        1 => random.below(limit).to_string(),
        _ => random.among(listed).unwrap_or(0).to_string(),
    }
}

fn lay(listing: &Listing, random: &mut SplitMix64) -> String {
    let value = match random.below(40) {
        0 => random
            .pick(["-0", "+1", "01", "-01", "", "-", "--1", "2147483648", "-2147483649"])
            .to_owned(),
        1 => "-100000000000000000000000000000".to_owned(),
        _ => value(random).to_string(),
    };
    let (person, slot) = (person(listing, random), slot(listing, random));
    format!("L,{person},{slot},{value}")
}

fn view(listing: &Listing, random: &mut SplitMix64) -> String {
    let (person, slot) = (person(listing, random), slot(listing, random));
    format!("V,{person},{slot}")
}

fn run(listing: &Listing, random: &mut SplitMix64) -> String {
    let person = person(listing, random);
    let label = person.parse().ok().and_then(|person| listing.label_of(person)).unwrap_or_default();
    let rows = rows(listing, label, random);
    let mut digits = hex(rows.as_flattened());
    if random.chance(2) {
        // A sheet that ends inside a row.
        digits.truncate(random.below(digits.len() + 1));
    }
    format!("R,{person},{},{digits}", turns(random))
}

fn rows(listing: &Listing, label: Label, random: &mut SplitMix64) -> Vec<Bytes> {
    let manner = match random.below(10) {
        0..=5 => Manner::Lawful,
        6..=8 => Manner::Sly,
        _ => Manner::Loose,
    };
    if random.chance(12)
        && let Some(rows) = attack::rows(listing, label, random)
    {
        return rows;
    }
    let chain = random.chance(8);
    let writer = Writer::new(listing, label, manner, random);
    let mut rows = if chain { writer.chain() } else { writer.program() };
    if random.chance(14) {
        damage::sheet(&mut rows, random);
    }
    rows
}

fn turns(random: &mut SplitMix64) -> String {
    match random.below(20) {
        0..=13 => random.below(40),
        14..=17 => random.below(600),
        18 => 65_535,
        _ => random.pick([0, 1, 65_535, 65_536, 4_294_967_296]),
    }
    .to_string()
}
