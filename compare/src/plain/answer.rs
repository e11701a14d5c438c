//! What a call, or a refused roster, is answered with.

use super::numeral;

/// The four fields of a line of output.
#[derive(Clone, Copy, Debug, Default, PartialEq, Eq)]
pub struct Answer {
    pub number: u8,
    pub row: usize,
    pub byte: usize,
    pub value: i32,
}

impl Answer {
    /// The answer to a call line that is not of the form.
    pub const FAULTY_LINE: Self = Self::fault(14, 0, 0);

    pub const fn done(value: i32) -> Self {
        Self { number: 0, row: 0, byte: 0, value }
    }

    pub const fn fault(number: u8, row: usize, byte: usize) -> Self {
        Self { number, row, byte, value: 0 }
    }

    pub fn print(self, text: &mut Vec<u8>) {
        numeral::print(i64::from(self.number), text);
        for field in [self.row as i64, self.byte as i64, i64::from(self.value)] {
            text.push(b',');
            numeral::print(field, text);
        }
        text.push(b'\n');
    }
}
