//! Judging: a sheet passes by the labels of the slots that it names.

use super::answer::Answer;
use super::label::Label;
use super::row::Row;
use super::table::Table;

/// A row that does not pass.
#[derive(Clone, Copy, Debug, PartialEq, Eq)]
pub enum Fault {
    Set(usize),
    While(usize),
}

impl Fault {
    pub fn answer(self) -> Answer {
        match self {
            Fault::Set(row) => Answer::fault(31, row, 0),
            Fault::While(row) => Answer::fault(32, row, 0),
        }
    }
}

/// Judges every row, reached or not, under the runner's label.
pub fn judge(rows: &[Row], table: &Table, runner: Label) -> Result<(), Fault> {
    let mut control = runner;
    // The control labels outside the open blocks.
    let mut outside = Vec::new();
    for (number, row) in rows.iter().enumerate() {
        match *row {
            Row::Idle | Row::Else(_) => {}
            Row::If(guard, _) => {
                outside.push(control);
                control = control.join(table.label(guard));
            }
            Row::While(guard, _) => {
                outside.push(control);
                control = control.join(table.label(guard));
                if !control.flows_to(runner) {
                    return Err(Fault::While(number));
                }
            }
            Row::EndIf | Row::EndWhile(_) => control = outside.pop().unwrap_or(runner),
            _ => {
                if !passes(row, table, control) {
                    return Err(Fault::Set(number));
                }
            }
        }
    }
    Ok(())
}

/// Whether the control label and what a set row reads are at or below its
/// target. Rows that set nothing pass.
fn passes(row: &Row, table: &Table, control: Label) -> bool {
    let label = |slot| table.label(slot);
    match *row {
        Row::Put(target, _) => control.flows_to(label(target)),
        Row::SumConstant(target, first, _)
        | Row::DifferenceConstant(target, first, _)
        | Row::ProductConstant(target, first, _)
        | Row::ShareConstant(target, first, _)
        | Row::EqualConstant(target, first, _)
        | Row::LessConstant(target, first, _)
        | Row::DifferingConstant(target, first, _)
        | Row::LesserConstant(target, first, _) => {
            control.join(label(first)).flows_to(label(target))
        }
        Row::SumSlot(target, first, second)
        | Row::DifferenceSlot(target, first, second)
        | Row::ProductSlot(target, first, second)
        | Row::ShareSlot(target, first, second)
        | Row::EqualSlot(target, first, second)
        | Row::LessSlot(target, first, second)
        | Row::DifferingSlot(target, first, second)
        | Row::LesserSlot(target, first, second) => {
            let read = label(first).join(label(second));
            control.join(read).flows_to(label(target))
        }
        _ => true,
    }
}
