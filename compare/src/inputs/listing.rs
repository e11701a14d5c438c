//! Random lists of people and slots.

use crate::plain::label::Label;
use crate::plain::table::{PEOPLE, SLOTS};
use crate::random::SplitMix64;

/// A label's code below 2 to the power of the width, with its meaning.
#[derive(Clone, Copy, Debug)]
pub struct Code {
    pub code: u16,
    pub label: Label,
}

impl Code {
    pub fn new(code: u16) -> Self {
        let code = code % (1 << Label::WIDTH);
        Self { code, label: Label::from_code(u64::from(code)).unwrap_or_default() }
    }

    pub fn random(random: &mut SplitMix64) -> Self {
        let topics = random.pick([0, 0, 0, 1, 1, 2, 3, 4, 5, 6, 7]);
        let level = random.pick([0, 0, 0, 1, 1, 2, 3, 4, 100, 255]);
        Self::new(level << 3 | topics)
    }
}

/// The people and slots of a roster. No number comes twice.
#[derive(Clone, Debug, Default)]
pub struct Listing {
    pub people: Vec<(u8, Code)>,
    pub slots: Vec<(u8, Code)>,
}

impl Listing {
    pub fn random(random: &mut SplitMix64) -> Self {
        // Few labels, so that many of them are the same or stand in order.
        let count = 1 + random.below(4);
        let pool: Vec<Code> = (0..count).map(|_| Code::random(random)).collect();
        let people = match random.below(20) {
            0 => 0,
            1 => PEOPLE,
            _ => 1 + random.below(6),
        };
        let slots = match random.below(20) {
            0 => 0,
            1 => SLOTS,
            _ => 1 + random.below(10),
        };
        let mut listing = Self {
            people: numbered(PEOPLE, people, &pool, random),
            slots: numbered(SLOTS, slots, &pool, random),
        };
        // Somebody who sees all, so that the last values come to light.
        if random.chance(60)
            && let Some((_, code)) = listing.people.last_mut()
        {
            *code = Code::new(random.pick([31, 2047]));
        }
        listing
    }

    pub fn label_of(&self, person: u8) -> Option<Label> {
        self.people.iter().find(|&&(number, _)| number == person).map(|(_, code)| code.label)
    }

    /// The numbers of the people whose labels pass a test.
    pub fn people_where(&self, test: impl Fn(Label) -> bool) -> Vec<u8> {
        numbers_where(&self.people, test)
    }

    /// The numbers of the slots whose labels pass a test.
    pub fn slots_where(&self, test: impl Fn(Label) -> bool) -> Vec<u8> {
        numbers_where(&self.slots, test)
    }

    /// The roster, its lines in any order.
    pub fn text(&self, random: &mut SplitMix64) -> Vec<u8> {
        let people = self.people.iter().map(|entry| ('P', entry));
        let slots = self.slots.iter().map(|entry| ('S', entry));
        let mut lines: Vec<String> = people
            .chain(slots)
            .map(|(letter, (number, code))| format!("{letter},{number},{}\n", code.code))
            .collect();
        random.shuffle(&mut lines);
        lines.concat().into_bytes()
    }
}

fn numbers_where(entries: &[(u8, Code)], test: impl Fn(Label) -> bool) -> Vec<u8> {
    entries.iter().filter(|(_, code)| test(code.label)).map(|&(number, _)| number).collect()
}

/// So many of the numbers below a limit, each with a label of the pool.
fn numbered(limit: usize, count: usize, pool: &[Code], random: &mut SplitMix64) -> Vec<(u8, Code)> {
    let mut numbers: Vec<u8> = (0..limit as u8).collect();
    random.shuffle(&mut numbers);
    numbers.into_iter().take(count).map(|number| (number, pool[random.below(pool.len())])).collect()
}
