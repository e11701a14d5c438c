//! The eight operations on values.

#[derive(Clone, Copy, Debug, PartialEq, Eq)]
pub enum Operation {
    Sum,
    Difference,
    Product,
    Share,
    Equal,
    Less,
    Differing,
    Lesser,
}

impl Operation {
    /// All operations, in the order of their numbers.
    pub const ALL: [Self; 8] = [
        Self::Sum,
        Self::Difference,
        Self::Product,
        Self::Share,
        Self::Equal,
        Self::Less,
        Self::Differing,
        Self::Lesser,
    ];

    pub fn from_byte(byte: u8) -> Option<Self> {
        Self::ALL.get(usize::from(byte)).copied()
    }

    #[inline]
    pub fn apply(self, first: i32, second: i32) -> i32 {
        match self {
            Self::Sum => first.wrapping_add(second),
            Self::Difference => first.wrapping_sub(second),
            Self::Product => first.wrapping_mul(second),
            Self::Share => share(first, second),
            Self::Equal => i32::from(first == second),
            Self::Less => i32::from(first < second),
            Self::Differing => (first ^ second).count_ones() as i32,
            Self::Lesser => first.min(second),
        }
    }
}

/// Divides to the nearest whole number, an exact half away from zero; by 0
/// it gives 0.
fn share(first: i32, second: i32) -> i32 {
    let (dividend, divisor) = (first.unsigned_abs(), second.unsigned_abs());
    if divisor == 0 {
        return 0;
    }
    let remainder = dividend % divisor;
    let up = remainder >= divisor - remainder;
    // The one quotient out of range, 2^31, wraps to the value wanted.
    let quotient = (dividend / divisor + u32::from(up)) as i32;
    if (first < 0) == (second < 0) { quotient } else { quotient.wrapping_neg() }
}
