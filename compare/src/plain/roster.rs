//! The text that lists people and slots.

use super::answer::Answer;
use super::label::Label;
use super::numeral;
use super::table::{PEOPLE, SLOTS, Table};

const LONGEST: usize = 4096;

/// Why a roster is refused. A form fault is at an offset in its line.
#[derive(Clone, Copy, Debug, PartialEq, Eq)]
pub enum Fault {
    TooLong,
    Line(usize, LineFault),
}

#[derive(Clone, Copy, Debug, PartialEq, Eq)]
pub enum LineFault {
    Form(usize),
    Number,
    ListedBefore,
    Label,
}

impl Fault {
    pub fn answer(self) -> Answer {
        match self {
            Fault::TooLong => Answer::fault(1, 0, 0),
            Fault::Line(line, LineFault::Form(offset)) => Answer::fault(2, line, offset),
            Fault::Line(line, LineFault::Number) => Answer::fault(3, line, 0),
            Fault::Line(line, LineFault::ListedBefore) => Answer::fault(4, line, 0),
            Fault::Line(line, LineFault::Label) => Answer::fault(5, line, 0),
        }
    }
}

/// Parts an input into the roster, which is the leading lines that begin with
/// P or S, and the call lines.
pub fn split(input: &[u8]) -> (&[u8], &[u8]) {
    let length = input
        .split_inclusive(|&byte| byte == b'\n')
        .take_while(|line| matches!(line.first(), Some(b'P' | b'S')))
        .map(<[u8]>::len)
        .sum();
    input.split_at(length)
}

/// The table that a roster lists.
pub fn read(text: &[u8]) -> Result<Table, Fault> {
    if text.len() > LONGEST {
        return Err(Fault::TooLong);
    }
    let mut table = Table::empty();
    let lines = text.split_inclusive(|&byte| byte == b'\n');
    for (number, line) in lines.enumerate() {
        list(line, &mut table).map_err(|fault| Fault::Line(number, fault))?;
    }
    Ok(table)
}

enum Listed {
    Person,
    Slot,
}

fn list(line: &[u8], table: &mut Table) -> Result<(), LineFault> {
    let (listed, number, code) = parse(line).map_err(LineFault::Form)?;
    let limit = match listed {
        Listed::Person => PEOPLE,
        Listed::Slot => SLOTS,
    };
    let number = u8::try_from(number)
        .ok()
        .filter(|&number| usize::from(number) < limit)
        .ok_or(LineFault::Number)?;
    let before = match listed {
        Listed::Person => table.person(number).is_some(),
        Listed::Slot => table.slot(number).is_some(),
    };
    if before {
        return Err(LineFault::ListedBefore);
    }
    let label = Label::from_code(code).ok_or(LineFault::Label)?;
    match listed {
        Listed::Person => table.list_person(number, label),
        Listed::Slot => table.list_slot(number, label),
    }
    Ok(())
}

/// The parts of a line, or the offset of the first byte that no line could
/// have there.
fn parse(line: &[u8]) -> Result<(Listed, u64, u64), usize> {
    let mut cursor = Cursor { line, offset: 0 };
    let listed = match line.first() {
        Some(b'P') => Listed::Person,
        Some(b'S') => Listed::Slot,
        _ => return Err(0),
    };
    cursor.offset = 1;
    cursor.expect(b',')?;
    let number = cursor.number()?;
    cursor.expect(b',')?;
    let code = cursor.number()?;
    cursor.expect(b'\n')?;
    Ok((listed, number, code))
}

struct Cursor<'a> {
    line: &'a [u8],
    offset: usize,
}

impl Cursor<'_> {
    fn expect(&mut self, byte: u8) -> Result<(), usize> {
        if self.line.get(self.offset) != Some(&byte) {
            return Err(self.offset);
        }
        self.offset += 1;
        Ok(())
    }

    fn number(&mut self) -> Result<u64, usize> {
        let (number, length) = numeral::leading(&self.line[self.offset..]).ok_or(self.offset)?;
        self.offset += length;
        Ok(number)
    }
}
