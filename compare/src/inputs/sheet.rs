//! Random sheets: listings of structured programs.

use super::listing::Listing;
use crate::plain::label::Label;
use crate::plain::operation::Operation;
use crate::random::SplitMix64;
use crate::rows::{self, Bytes, ELSE, END, IDLE};

/// Values at which the operations turn.
const TELLING: [i32; 18] = [
    0,
    0,
    1,
    1,
    -1,
    2,
    -2,
    3,
    7,
    -7,
    10,
    46_341,
    65_536,
    i32::MAX,
    i32::MAX - 1,
    i32::MIN,
    i32::MIN + 1,
    1 << 30,
];

pub fn value(random: &mut SplitMix64) -> i32 {
    if random.chance(75) { random.pick(TELLING) } else { random.number() as i32 }
}

/// How a sheet is meant.
#[derive(Clone, Copy, Debug, PartialEq, Eq)]
pub enum Manner {
    /// It keeps to the labels.
    Lawful,
    /// It keeps to them but for a slip now and then, which leaks.
    Sly,
    /// It takes any slot.
    Loose,
}

impl Manner {
    fn slips(self, random: &mut SplitMix64) -> bool {
        match self {
            Manner::Lawful => false,
            Manner::Sly => random.chance(12),
            Manner::Loose => true,
        }
    }
}

pub struct Writer<'a> {
    listing: &'a Listing,
    runner: Label,
    manner: Manner,
    random: &'a mut SplitMix64,
    rows: Vec<Bytes>,
    /// No statement is begun once there are so many rows.
    room: usize,
}

impl<'a> Writer<'a> {
    pub fn new(
        listing: &'a Listing,
        runner: Label,
        manner: Manner,
        random: &'a mut SplitMix64,
    ) -> Self {
        let room = match random.below(40) {
            0 => 240,
            1..=8 => 60,
            _ => 4 + random.below(20),
        };
        Self { listing, runner, manner, random, rows: Vec::new(), room }
    }

    /// A sheet of statements of every kind.
    pub fn program(mut self) -> Vec<Bytes> {
        while self.rows.len() < self.room {
            self.statement(self.runner, 0);
            if self.random.chance(15) {
                break;
            }
        }
        self.rows
    }

    /// Blocks within blocks, up to one more than is lawful and beyond.
    pub fn chain(mut self) -> Vec<Bytes> {
        let depth = self.random.pick([1, 3, 8, 15, 16, 16, 16, 17, 17, 18]);
        self.room = usize::MAX;
        let mut control = self.runner;
        for _ in 0..depth {
            let guard =
                if self.random.chance(25) { self.open_while(control) } else { self.open_if() };
            control = control.join(guard);
        }
        self.set(control);
        for _ in 0..depth {
            self.rows.push(END);
            if self.random.chance(20) {
                self.set(self.runner);
            }
        }
        self.rows
    }

    fn block(&mut self, control: Label, depth: usize) {
        for _ in 0..self.random.below(4) {
            self.statement(control, depth);
        }
    }

    fn statement(&mut self, control: Label, depth: usize) {
        let simple = depth == 5 || self.rows.len() >= self.room;
        match self.random.below(if simple { 6 } else { 11 }) {
            0 => self.rows.push(IDLE),
            1..=5 => self.set(control),
            6..=8 => self.choice(control, depth),
            9 => self.repetition(control, depth),
            _ => self.counted(control, depth),
        }
    }

    fn choice(&mut self, control: Label, depth: usize) {
        let inside = control.join(self.open_if());
        self.block(inside, depth + 1);
        if self.random.chance(60) {
            self.rows.push(ELSE);
            self.block(inside, depth + 1);
        }
        self.rows.push(END);
    }

    /// A loop that may go on until it is cut.
    fn repetition(&mut self, control: Label, depth: usize) {
        let inside = control.join(self.open_while(control));
        self.block(inside, depth + 1);
        self.rows.push(END);
    }

    /// A loop that counts down a slot.
    fn counted(&mut self, control: Label, depth: usize) {
        let runner = self.runner;
        let fits = |label| control.flows_to(label) && label.flows_to(runner);
        let Some(counter) = self.slot(fits) else {
            return self.set(control);
        };
        let turns = 1 + self.random.below(6) as i32;
        self.rows.push(rows::put(counter, turns));
        self.rows.push(rows::while_row(counter));
        self.block(control.join(self.label(counter)), depth + 1);
        let down = rows::with_constant(Operation::Difference, counter, counter, 1);
        self.rows.push(down);
        self.rows.push(END);
    }

    /// Opens an if and gives its guard's label.
    fn open_if(&mut self) -> Label {
        let guard = self.slot(|_| true).unwrap_or(0);
        self.rows.push(rows::if_row(guard));
        self.label(guard)
    }

    /// Opens a while and gives its guard's label. Where no slot fits, it opens
    /// an if.
    fn open_while(&mut self, control: Label) -> Label {
        let runner = self.runner;
        let Some(guard) = self.slot(|label| control.join(label).flows_to(runner)) else {
            return self.open_if();
        };
        self.rows.push(rows::while_row(guard));
        self.label(guard)
    }

    /// A set row, or an idle one where no slot fits.
    fn set(&mut self, control: Label) {
        let Some(target) = self.slot(|label| control.flows_to(label)) else {
            return self.rows.push(IDLE);
        };
        let limit = self.label(target);
        let operation = self.random.pick(Operation::ALL);
        let first = self.slot(|label| label.flows_to(limit)).unwrap_or(target);
        let second = self.slot(|label| label.flows_to(limit)).unwrap_or(target);
        let constant = value(self.random);
        self.rows.push(match self.random.below(5) {
            0 => rows::put(target, constant),
            1 | 2 => rows::with_constant(operation, target, first, constant),
            _ => rows::with_slot(operation, target, first, second),
        });
    }

    /// A listed slot: one that fits, or any if the sheet slips.
    fn slot(&mut self, fits: impl Fn(Label) -> bool) -> Option<u8> {
        let slips = self.manner.slips(self.random);
        let slots = self.listing.slots_where(|label| slips || fits(label));
        self.random.among(&slots)
    }

    fn label(&self, slot: u8) -> Label {
        self.listing
            .slots
            .iter()
            .find(|&&(number, _)| number == slot)
            .map_or_else(Label::default, |(_, code)| code.label)
    }
}
