//! Running a sheet that was read and judged.

use super::operation::Operation::*;
use super::row::Row;
use super::table::Values;

/// There was no turn left; the values are as the run left them.
#[derive(Clone, Copy, Debug, PartialEq, Eq)]
pub struct Cut;

/// Runs rows over values and gives the turns taken.
pub fn run(rows: &[Row], values: &mut Values, turns: u16) -> Result<u16, Cut> {
    let mut left = turns;
    let mut next = 0;
    while let Some(row) = rows.get(next) {
        next += 1;
        match *row {
            Row::Idle | Row::EndIf => {}
            Row::Put(target, constant) => values[target] = constant,
            Row::SumConstant(t, a, b) => values[t] = Sum.apply(values[a], b),
            Row::DifferenceConstant(t, a, b) => values[t] = Difference.apply(values[a], b),
            Row::ProductConstant(t, a, b) => values[t] = Product.apply(values[a], b),
            Row::ShareConstant(t, a, b) => values[t] = Share.apply(values[a], b),
            Row::EqualConstant(t, a, b) => values[t] = Equal.apply(values[a], b),
            Row::LessConstant(t, a, b) => values[t] = Less.apply(values[a], b),
            Row::DifferingConstant(t, a, b) => values[t] = Differing.apply(values[a], b),
            Row::LesserConstant(t, a, b) => values[t] = Lesser.apply(values[a], b),
            Row::SumSlot(t, a, b) => values[t] = Sum.apply(values[a], values[b]),
            Row::DifferenceSlot(t, a, b) => values[t] = Difference.apply(values[a], values[b]),
            Row::ProductSlot(t, a, b) => values[t] = Product.apply(values[a], values[b]),
            Row::ShareSlot(t, a, b) => values[t] = Share.apply(values[a], values[b]),
            Row::EqualSlot(t, a, b) => values[t] = Equal.apply(values[a], values[b]),
            Row::LessSlot(t, a, b) => values[t] = Less.apply(values[a], values[b]),
            Row::DifferingSlot(t, a, b) => values[t] = Differing.apply(values[a], values[b]),
            Row::LesserSlot(t, a, b) => values[t] = Lesser.apply(values[a], values[b]),
            Row::If(guard, _) if values[guard] != 0 => {}
            Row::If(_, otherwise) => next = otherwise.into(),
            Row::Else(end) => next = end.into(),
            Row::While(guard, _) if values[guard] != 0 => {
                left = left.checked_sub(1).ok_or(Cut)?;
            }
            Row::While(_, after) => next = after.into(),
            Row::EndWhile(start) => next = start.into(),
        }
    }
    Ok(turns - left)
}
