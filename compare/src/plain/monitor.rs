//! The box after its roster, and the calls at its windows.

use super::answer::Answer;
use super::call::Call;
use super::judge;
use super::roster;
use super::run::{self, Cut};
use super::sheet;
use super::table::Table;

/// Why a call is not carried out. A cut comes with the turns given.
#[derive(Clone, Copy, Debug, PartialEq, Eq)]
pub enum Fault {
    NoPerson,
    NoSlot,
    Lay,
    View,
    Sheet(sheet::Fault),
    Judged(judge::Fault),
    Cut(u16),
}

impl From<sheet::Fault> for Fault {
    fn from(fault: sheet::Fault) -> Self {
        Self::Sheet(fault)
    }
}

impl From<judge::Fault> for Fault {
    fn from(fault: judge::Fault) -> Self {
        Self::Judged(fault)
    }
}

impl Fault {
    fn answer(self) -> Answer {
        match self {
            Fault::NoPerson => Answer::fault(10, 0, 0),
            Fault::NoSlot => Answer::fault(11, 0, 0),
            Fault::Lay => Answer::fault(12, 0, 0),
            Fault::View => Answer::fault(13, 0, 0),
            Fault::Sheet(fault) => fault.answer(),
            Fault::Judged(fault) => fault.answer(),
            Fault::Cut(turns) => Answer { value: turns.into(), ..Answer::fault(33, 0, 0) },
        }
    }
}

pub struct Monitor {
    table: Table,
}

impl Monitor {
    pub fn new(roster: &[u8]) -> Result<Self, roster::Fault> {
        let table = roster::read(roster)?;
        Ok(Self { table })
    }

    pub fn answer(&mut self, call: &Call) -> Answer {
        let value = match *call {
            Call::Lay { person, slot, value } => self.lay(person, slot, value).map(|()| 0),
            Call::View { person, slot } => self.view(person, slot),
            Call::Run { person, turns, ref sheet } => self.run(person, turns, sheet).map(i32::from),
        };
        value.map_or_else(Fault::answer, Answer::done)
    }

    fn lay(&mut self, person: u8, slot: u8, value: i32) -> Result<(), Fault> {
        let label = self.table.person(person).ok_or(Fault::NoPerson)?;
        let slot = self.table.slot(slot).ok_or(Fault::NoSlot)?;
        if !label.flows_to(self.table.label(slot)) {
            return Err(Fault::Lay);
        }
        self.table.values[slot] = value;
        Ok(())
    }

    fn view(&self, person: u8, slot: u8) -> Result<i32, Fault> {
        let label = self.table.person(person).ok_or(Fault::NoPerson)?;
        let slot = self.table.slot(slot).ok_or(Fault::NoSlot)?;
        if !self.table.label(slot).flows_to(label) {
            return Err(Fault::View);
        }
        Ok(self.table.values[slot])
    }

    fn run(&mut self, person: u8, turns: u16, sheet: &[u8]) -> Result<u16, Fault> {
        let runner = self.table.person(person).ok_or(Fault::NoPerson)?;
        let rows = sheet::read(sheet, &self.table)?;
        judge::judge(&rows, &self.table, runner)?;
        // A cut run changes nothing, so it runs over a copy.
        let mut values = self.table.values;
        let taken = run::run(&rows, &mut values, turns).map_err(|Cut| Fault::Cut(turns))?;
        self.table.values = values;
        Ok(taken)
    }
}
