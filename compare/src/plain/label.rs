//! Labels: a pair of three topics (low) and a ladder of four levels (high).

const TOPIC_BITS: u32 = 3;
const LEVEL_BITS: u32 = 8;
const HIGHEST_LEVEL: u64 = 3;

/// A label by its meaning; codes that mean the same give the same label.
#[derive(Clone, Copy, Debug, Default, PartialEq, Eq)]
pub struct Label {
    topics: u8,
    level: u8,
}

impl Label {
    /// How many bits wide a code may be.
    pub const WIDTH: u32 = TOPIC_BITS + LEVEL_BITS;

    /// The label of a code, if the code is not too wide.
    pub fn from_code(code: u64) -> Option<Self> {
        let topics = code & ((1 << TOPIC_BITS) - 1);
        let level = (code >> TOPIC_BITS).min(HIGHEST_LEVEL);
        (code < 1 << Self::WIDTH).then_some(Self { topics: topics as u8, level: level as u8 })
    }

    /// Whether this label is at or below the other.
    pub fn flows_to(self, other: Self) -> bool {
        self.topics & !other.topics == 0 && self.level <= other.level
    }

    /// The least label that both are at or below.
    pub fn join(self, other: Self) -> Self {
        Self { topics: self.topics | other.topics, level: self.level.max(other.level) }
    }
}
