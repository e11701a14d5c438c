//! Rows as bytes, for writing sheets.

use crate::plain::operation::Operation;

pub type Bytes = [u8; 8];

pub const IDLE: Bytes = [0; 8];
pub const ELSE: Bytes = [5, 0, 0, 0, 0, 0, 0, 0];
pub const END: Bytes = [7, 0, 0, 0, 0, 0, 0, 0];

pub fn put(target: u8, constant: i32) -> Bytes {
    let [a, b, c, d] = constant.to_be_bytes();
    [1, 0, target, 0, a, b, c, d]
}

pub fn with_constant(operation: Operation, target: u8, first: u8, second: i32) -> Bytes {
    let [a, b, c, d] = second.to_be_bytes();
    [2, operation as u8, target, first, a, b, c, d]
}

pub fn with_slot(operation: Operation, target: u8, first: u8, second: u8) -> Bytes {
    [3, operation as u8, target, first, 0, 0, 0, second]
}

pub fn if_row(guard: u8) -> Bytes {
    [4, 0, 0, guard, 0, 0, 0, 0]
}

pub fn while_row(guard: u8) -> Bytes {
    [6, 0, 0, guard, 0, 0, 0, 0]
}

/// The lower-case hexadecimal digits of some bytes.
pub fn hex(bytes: &[u8]) -> String {
    const DIGITS: &[u8; 16] = b"0123456789abcdef";
    bytes
        .iter()
        .flat_map(|byte| [byte >> 4, byte & 15])
        .map(|nibble| char::from(DIGITS[usize::from(nibble)]))
        .collect()
}

/// The line of a run.
pub fn run_line(person: u8, turns: u16, rows: &[Bytes]) -> String {
    format!("R,{person},{turns},{}\n", hex(rows.as_flattened()))
}
