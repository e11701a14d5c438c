//! Rows: what one row does, read from its bytes.

use super::operation::Operation;
use super::table::{Slot, Table};

pub const ROW_BYTES: usize = 8;

/// A row as it is run. A set row has its target, its first operand and its
/// second; a block has its guard, and where to go on when the guard is 0.
///
/// Each operation has a case of its own for each form of its second operand,
/// so that one jump leads to the code for a row.
#[derive(Clone, Copy, Debug)]
pub enum Row {
    Idle,
    Put(Slot, i32),
    SumConstant(Slot, Slot, i32),
    DifferenceConstant(Slot, Slot, i32),
    ProductConstant(Slot, Slot, i32),
    ShareConstant(Slot, Slot, i32),
    EqualConstant(Slot, Slot, i32),
    LessConstant(Slot, Slot, i32),
    DifferingConstant(Slot, Slot, i32),
    LesserConstant(Slot, Slot, i32),
    SumSlot(Slot, Slot, Slot),
    DifferenceSlot(Slot, Slot, Slot),
    ProductSlot(Slot, Slot, Slot),
    ShareSlot(Slot, Slot, Slot),
    EqualSlot(Slot, Slot, Slot),
    LessSlot(Slot, Slot, Slot),
    DifferingSlot(Slot, Slot, Slot),
    LesserSlot(Slot, Slot, Slot),
    If(Slot, Jump),
    Else(Jump),
    While(Slot, Jump),
    EndIf,
    EndWhile(Jump),
}

/// The number of a row.
pub type Jump = u16;

/// What is wrong with a row. Faults of slots and unused bytes are at a byte.
#[derive(Clone, Copy, Debug, PartialEq, Eq)]
pub enum Fault {
    Kind,
    Operation,
    Slot(usize),
    Unused(usize),
    Else,
    End,
    TooDeep,
}

impl Fault {
    pub fn number_and_byte(self) -> (u8, usize) {
        match self {
            Fault::Kind => (21, 0),
            Fault::Operation => (22, 1),
            Fault::Slot(byte) => (23, byte),
            Fault::Unused(byte) => (24, byte),
            Fault::Else => (25, 0),
            Fault::End => (26, 0),
            Fault::TooDeep => (27, 0),
        }
    }
}

/// The bytes that each kind uses, as bits of a row read as one number with
/// the highest byte first.
const USED: [u64; 8] = [
    0xff00_0000_0000_0000,
    0xff00_ff00_ffff_ffff,
    0xffff_ffff_ffff_ffff,
    0xffff_ffff_0000_00ff,
    0xff00_00ff_0000_0000,
    0xff00_0000_0000_0000,
    0xff00_00ff_0000_0000,
    0xff00_0000_0000_0000,
];

/// Reads one row by itself. Its jumps are still to be set, and an end is
/// taken for the end of an if.
pub fn read(bytes: &[u8; ROW_BYTES], table: &Table) -> Result<Row, Fault> {
    let used = USED.get(usize::from(bytes[0])).ok_or(Fault::Kind)?;
    let slot = |byte: usize| table.slot(bytes[byte]).ok_or(Fault::Slot(byte));
    let row = match bytes[0] {
        1 => Row::Put(slot(2)?, constant(bytes)),
        2 => {
            let operation = operation(bytes)?;
            with_constant(operation, slot(2)?, slot(3)?, constant(bytes))
        }
        3 => {
            let operation = operation(bytes)?;
            with_slot(operation, slot(2)?, slot(3)?, slot(7)?)
        }
        4 => Row::If(slot(3)?, 0),
        5 => Row::Else(0),
        6 => Row::While(slot(3)?, 0),
        7 => Row::EndIf,
        _ => Row::Idle,
    };
    match u64::from_be_bytes(*bytes) & !used {
        0 => Ok(row),
        unused => Err(Fault::Unused(unused.leading_zeros() as usize / 8)),
    }
}

fn constant(bytes: &[u8; ROW_BYTES]) -> i32 {
    let [_, _, _, _, constant @ ..] = *bytes;
    i32::from_be_bytes(constant)
}

fn operation(bytes: &[u8; ROW_BYTES]) -> Result<Operation, Fault> {
    Operation::from_byte(bytes[1]).ok_or(Fault::Operation)
}

fn with_constant(operation: Operation, target: Slot, first: Slot, second: i32) -> Row {
    match operation {
        Operation::Sum => Row::SumConstant(target, first, second),
        Operation::Difference => Row::DifferenceConstant(target, first, second),
        Operation::Product => Row::ProductConstant(target, first, second),
        Operation::Share => Row::ShareConstant(target, first, second),
        Operation::Equal => Row::EqualConstant(target, first, second),
        Operation::Less => Row::LessConstant(target, first, second),
        Operation::Differing => Row::DifferingConstant(target, first, second),
        Operation::Lesser => Row::LesserConstant(target, first, second),
    }
}

fn with_slot(operation: Operation, target: Slot, first: Slot, second: Slot) -> Row {
    match operation {
        Operation::Sum => Row::SumSlot(target, first, second),
        Operation::Difference => Row::DifferenceSlot(target, first, second),
        Operation::Product => Row::ProductSlot(target, first, second),
        Operation::Share => Row::ShareSlot(target, first, second),
        Operation::Equal => Row::EqualSlot(target, first, second),
        Operation::Less => Row::LessSlot(target, first, second),
        Operation::Differing => Row::DifferingSlot(target, first, second),
        Operation::Lesser => Row::LesserSlot(target, first, second),
    }
}
