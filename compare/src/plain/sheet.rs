//! Sheets: bytes read into rows, with the blocks' jumps worked out.

use super::answer::Answer;
use super::row::{self, ROW_BYTES, Row};
use super::table::Table;

pub const MOST_ROWS: usize = 256;
const MOST_OPEN: usize = 16;

/// Why a sheet is not read; a row's fault comes with the row.
#[derive(Clone, Copy, Debug, PartialEq, Eq)]
pub enum Fault {
    Length,
    Row(usize, row::Fault),
    StillOpen(usize),
}

impl Fault {
    pub fn answer(self) -> Answer {
        match self {
            Fault::Length => Answer::fault(20, 0, 0),
            Fault::Row(row, fault) => {
                let (number, byte) = fault.number_and_byte();
                Answer::fault(number, row, byte)
            }
            Fault::StillOpen(row) => Answer::fault(28, row, 0),
        }
    }
}

/// Reads a sheet over the slots of a table.
pub fn read(bytes: &[u8], table: &Table) -> Result<Vec<Row>, Fault> {
    let (sheet, rest) = bytes.as_chunks::<ROW_BYTES>();
    if sheet.len() > MOST_ROWS || !rest.is_empty() {
        return Err(Fault::Length);
    }
    let mut blocks = Blocks::default();
    let mut rows = Vec::with_capacity(sheet.len());
    for (number, bytes) in sheet.iter().enumerate() {
        row::read(bytes, table)
            .and_then(|row| blocks.place(row, &mut rows))
            .map_err(|fault| Fault::Row(number, fault))?;
    }
    match blocks.open.last() {
        Some(block) => Err(Fault::StillOpen(block.start)),
        None => Ok(rows),
    }
}

/// A block that is open: the row that opened it, and its else if it had one.
struct Block {
    start: usize,
    branch: Option<usize>,
}

#[derive(Default)]
struct Blocks {
    open: Vec<Block>,
}

impl Blocks {
    /// Puts a row after the others, and sets the jumps that it settles.
    fn place(&mut self, row: Row, rows: &mut Vec<Row>) -> Result<(), row::Fault> {
        let at = rows.len();
        match row {
            Row::If(..) | Row::While(..) => self.begin(at)?,
            Row::Else(_) => self.part(at, rows)?,
            Row::EndIf => {
                let end = self.close(at, rows)?;
                rows.push(end);
                return Ok(());
            }
            _ => {}
        }
        rows.push(row);
        Ok(())
    }

    fn begin(&mut self, at: usize) -> Result<(), row::Fault> {
        if self.open.len() == MOST_OPEN {
            return Err(row::Fault::TooDeep);
        }
        self.open.push(Block { start: at, branch: None });
        Ok(())
    }

    /// An else at a row: where its if goes on when the guard is 0.
    fn part(&mut self, at: usize, rows: &mut [Row]) -> Result<(), row::Fault> {
        let block = self.open.last_mut().ok_or(row::Fault::Else)?;
        match &mut rows[block.start] {
            Row::If(_, otherwise) if block.branch.is_none() => {
                *otherwise = at as u16 + 1;
            }
            _ => return Err(row::Fault::Else),
        }
        block.branch = Some(at);
        Ok(())
    }

    /// Closes the latest block and gives the row that ends it.
    fn close(&mut self, at: usize, rows: &mut [Row]) -> Result<Row, row::Fault> {
        let block = self.open.pop().ok_or(row::Fault::End)?;
        let after = at as u16 + 1;
        match &mut rows[block.branch.unwrap_or(block.start)] {
            Row::While(_, otherwise) => {
                *otherwise = after;
                return Ok(Row::EndWhile(block.start as u16));
            }
            Row::If(_, otherwise) => *otherwise = after,
            Row::Else(end) => *end = after,
            _ => {}
        }
        Ok(Row::EndIf)
    }
}
