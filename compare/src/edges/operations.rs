//! Operations where they overflow, round or turn.

use super::Edge;
use crate::plain::operation::Operation::{self, *};
use crate::rows;

const MAX: i32 = i32::MAX;
const MIN: i32 = i32::MIN;

/// An operation, its operands, and what it gives.
const TABLE: &[(Operation, i32, i32, i32)] = &[
    (Sum, 2, 3, 5),
    (Sum, MAX, 1, MIN),
    (Sum, MIN, -1, MAX),
    (Sum, MIN, MIN, 0),
    (Sum, MAX, MAX, -2),
    (Sum, MAX, MIN, -1),
    (Difference, 2, 3, -1),
    (Difference, MIN, 1, MAX),
    (Difference, MAX, -1, MIN),
    (Difference, 0, MIN, MIN),
    (Difference, MIN, MAX, 1),
    (Difference, MAX, MIN, -1),
    (Product, -3, 7, -21),
    (Product, 46_341, 46_341, -2_147_479_015),
    (Product, 65_536, 65_536, 0),
    (Product, MIN, -1, MIN),
    (Product, MIN, MIN, 0),
    (Product, MAX, MAX, 1),
    (Product, MAX, MIN, MIN),
    (Product, MIN, 3, MIN),
    (Share, -7, 2, -4),
    (Share, 5, 2, 3),
    (Share, 1, 3, 0),
    (Share, 5, 0, 0),
    (Share, 0, 0, 0),
    (Share, MIN, 0, 0),
    (Share, MIN, -1, MIN),
    (Share, MIN, 1, MIN),
    (Share, MAX, -1, -MAX),
    (Share, 7, 2, 4),
    (Share, 7, -2, -4),
    (Share, -7, -2, 4),
    (Share, 1, 2, 1),
    (Share, -1, 2, -1),
    (Share, 2, 3, 1),
    (Share, -2, 3, -1),
    (Share, 4, 3, 1),
    (Share, -5, 3, -2),
    (Share, MAX, 2, 1_073_741_824),
    (Share, MIN, 2, -1_073_741_824),
    (Share, MAX, MIN, -1),
    (Share, MIN, MAX, -1),
    (Share, MIN, MIN, 1),
    (Share, 1_073_741_823, MIN, 0),
    (Share, 1_073_741_824, MIN, -1),
    (Share, 1_073_741_823, MAX, 0),
    (Share, 1_073_741_824, MAX, 1),
    (Share, -1_073_741_824, MIN, 1),
    (Share, 1, MIN, 0),
    (Share, MAX, MAX - 1, 1),
    (Equal, 5, 5, 1),
    (Equal, 5, -5, 0),
    (Equal, MIN, MIN, 1),
    (Equal, MIN, MAX, 0),
    (Less, 1, 2, 1),
    (Less, 2, 2, 0),
    (Less, MIN, MAX, 1),
    (Less, MAX, MIN, 0),
    (Less, -1, 0, 1),
    (Differing, 0, -1, 32),
    (Differing, -1, -1, 0),
    (Differing, MIN, MAX, 32),
    (Differing, 0, MIN, 1),
    (Differing, 5, 6, 2),
    (Lesser, 1, 2, 1),
    (Lesser, MIN, MAX, MIN),
    (Lesser, -1, 0, -1),
    (Lesser, 0, -1, -1),
    (Lesser, MAX, MAX, MAX),
];

pub fn all() -> Vec<Edge> {
    TABLE
        .iter()
        .map(|&(operation, first, second, wanted)| edge(operation, first, second, wanted))
        .collect()
}

/// Takes the operation of two slots, of a slot and a constant, and of a slot
/// that is target and operand at once.
fn edge(operation: Operation, first: i32, second: i32, wanted: i32) -> Edge {
    let sheet = rows::run_line(
        0,
        0,
        &[
            rows::with_slot(operation, 2, 0, 1),
            rows::with_constant(operation, 3, 0, second),
            rows::with_slot(operation, 0, 0, 1),
        ],
    );
    let input = format!(
        "P,0,0\nS,0,0\nS,1,0\nS,2,0\nS,3,0\nL,0,0,{first}\nL,0,1,{second}\n{sheet}\
         V,0,2\nV,0,3\nV,0,0\n"
    );
    let answers = format!("0,0,0,{wanted}\n").repeat(3);
    Edge::new(
        format!("{operation:?} of {first} and {second}"),
        input,
        format!("{}{answers}", "0,0,0,0\n".repeat(3)),
    )
}
