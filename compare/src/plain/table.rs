//! The people and slots of a box, with their labels and values.

use std::ops::{Index, IndexMut};

use super::label::Label;

pub const PEOPLE: usize = 16;
pub const SLOTS: usize = 64;

/// The number of a listed slot.
#[derive(Clone, Copy, Debug, PartialEq, Eq)]
pub struct Slot(u8);

impl Slot {
    /// The place in an array of all slots. The remainder changes nothing, but
    /// it spares the check of the array's bounds.
    fn index(self) -> usize {
        usize::from(self.0) % SLOTS
    }
}

/// The values of all slots; one that is not listed stays 0 and is never read.
#[derive(Clone, Copy, Debug)]
pub struct Values([i32; SLOTS]);

impl Index<Slot> for Values {
    type Output = i32;

    #[inline]
    fn index(&self, slot: Slot) -> &i32 {
        &self.0[slot.index()]
    }
}

impl IndexMut<Slot> for Values {
    #[inline]
    fn index_mut(&mut self, slot: Slot) -> &mut i32 {
        &mut self.0[slot.index()]
    }
}

#[derive(Clone, Debug)]
pub struct Table {
    people: [Option<Label>; PEOPLE],
    /// One bit for each slot.
    listed: u64,
    labels: [Label; SLOTS],
    pub values: Values,
}

impl Table {
    pub fn empty() -> Self {
        Self {
            people: [None; PEOPLE],
            listed: 0,
            labels: [Label::default(); SLOTS],
            values: Values([0; SLOTS]),
        }
    }

    /// The label of a person, if listed.
    pub fn person(&self, number: u8) -> Option<Label> {
        self.people.get(usize::from(number)).copied().flatten()
    }

    /// The slot of a number, if listed.
    pub fn slot(&self, number: u8) -> Option<Slot> {
        let listed = usize::from(number) < SLOTS && self.listed >> number & 1 == 1;
        listed.then_some(Slot(number))
    }

    pub fn label(&self, slot: Slot) -> Label {
        self.labels[slot.index()]
    }

    /// Lists a person. The number is below [`PEOPLE`].
    pub fn list_person(&mut self, number: u8, label: Label) {
        self.people[usize::from(number)] = Some(label);
    }

    /// Lists a slot. The number is below [`SLOTS`].
    pub fn list_slot(&mut self, number: u8, label: Label) {
        self.listed |= 1 << number;
        self.labels[usize::from(number)] = label;
    }
}
