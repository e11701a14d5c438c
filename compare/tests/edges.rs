//! The plain program by itself, at the handwritten inputs.

use compare::edges;
use compare::plain::window::{MOST_BYTES, serve};

#[test]
fn answers_are_as_wanted() {
    for edge in edges::all() {
        let read = &edge.input[..edge.input.len().min(MOST_BYTES)];
        assert!(serve(read) == edge.wanted, "{}", edge.name);
    }
}
