//! Short sheets that would leak a value if a rule of judging were missing.

use super::listing::Listing;
use super::sheet::value;
use crate::plain::label::Label;
use crate::plain::operation::Operation;
use crate::random::SplitMix64;
use crate::rows::{Bytes, ELSE, END, if_row, put, while_row, with_constant, with_slot};

/// A sheet by which a runner would bring something of one slot into another
/// that is not above it, or into the answer. Nothing if all slots are above
/// each other.
pub fn rows(listing: &Listing, runner: Label, random: &mut SplitMix64) -> Option<Vec<Bytes>> {
    let (low, limit) = random.among(&listing.slots)?;
    let high = random.among(&listing.slots_where(|label| !label.flows_to(limit.label)))?;
    let open = random.among(&listing.slots_where(|label| label.flows_to(limit.label)))?;
    let operation = random.pick(Operation::ALL);
    let set = put(low, value(random));
    let by_answer = listing.slots_where(|label| !label.flows_to(runner));
    let unseen = random.among(&by_answer).unwrap_or(high);
    Some(match random.below(11) {
        0 => vec![with_constant(operation, low, high, value(random))],
        1 => vec![with_slot(operation, low, high, open)],
        2 => vec![with_slot(operation, low, open, high)],
        3 => vec![if_row(high), set, END],
        4 => vec![if_row(high), ELSE, set, END],
        5 => vec![put(low, 1), if_row(high), if_row(open), set, ELSE, set, END, END],
        6 => vec![if_row(high), END, if_row(open), if_row(high), ELSE, set, END, END],
        7 => vec![while_row(unseen), put(unseen, 0), END],
        8 => vec![put(low, 1), if_row(unseen), while_row(low), END, END],
        9 => vec![put(low, 1), if_row(unseen), ELSE, while_row(low), put(low, 0), END, END],
        _ => vec![set],
    })
}
