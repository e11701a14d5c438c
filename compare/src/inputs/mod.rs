//! Random inputs: rosters, calls and sheets, good and damaged.

pub mod attack;
pub mod calls;
pub mod damage;
pub mod listing;
pub mod sheet;

use crate::plain::window::MOST_BYTES;
use crate::random::SplitMix64;
use listing::Listing;

/// A whole input for a window.
pub fn input(random: &mut SplitMix64) -> Vec<u8> {
    let listing = Listing::random(random);
    let mut text = listing.text(random);
    if random.chance(16) {
        damage::roster(&mut text, random);
    }
    if random.chance(60) {
        text.extend(calls::first_lays(&listing, random));
    }
    let calls = random.below(20);
    for _ in 0..calls {
        text.extend(calls::line(&listing, random));
    }
    text.extend(calls::last_views(&listing, random));
    if random.below(400) == 0 {
        lengthen(&mut text, &listing, random);
    }
    if random.chance(4) {
        // Mostly the end of the last line, sometimes more.
        let cut = 1 + random.below(3).pow(3);
        text.truncate(text.len().saturating_sub(cut));
    }
    text
}

/// Brings an input's length to about the longest that is read.
fn lengthen(text: &mut Vec<u8>, listing: &Listing, random: &mut SplitMix64) {
    while text.len() < MOST_BYTES - 300 {
        text.extend(calls::line(listing, random));
    }
    for _ in 0..random.below(60) {
        text.extend(calls::last_views(listing, random));
    }
}
