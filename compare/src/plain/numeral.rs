//! Numbers in decimal digits: 0 alone, or digits that do not begin with 0.

/// The number at the start of a text, and how many bytes it takes. A number
/// that 64 bits do not hold counts as the largest that they do, which is
/// above every limit asked about.
pub fn leading(text: &[u8]) -> Option<(u64, usize)> {
    match text.first()? {
        b'0' => Some((0, 1)),
        b'1'..=b'9' => {
            let length = text.iter().position(|byte| !byte.is_ascii_digit()).unwrap_or(text.len());
            Some((value(&text[..length]), length))
        }
        _ => None,
    }
}

fn value(digits: &[u8]) -> u64 {
    digits
        .iter()
        .fold(0u64, |sum, digit| sum.saturating_mul(10).saturating_add(u64::from(digit - b'0')))
}

/// The number that is the whole of a text.
pub fn whole(text: &[u8]) -> Option<u64> {
    let (number, length) = leading(text)?;
    (length == text.len()).then_some(number)
}

/// A value: a number, with a minus before it if it is below 0.
pub fn signed(text: &[u8]) -> Option<i32> {
    match text.strip_prefix(b"-") {
        None => whole(text)?.try_into().ok(),
        Some(digits) => {
            let number = i64::try_from(whole(digits)?).ok()?;
            let value = i32::try_from(-number).ok()?;
            (value < 0).then_some(value)
        }
    }
}

/// Writes a number at the end of a text. Quicker than the formatting
/// machinery, which shows where an input is all lays and views.
pub fn print(number: i64, text: &mut Vec<u8>) {
    if let digit @ 0..=9 = number {
        return text.push(b'0' + digit as u8);
    }
    if number < 0 {
        text.push(b'-');
    }
    let mut digits = [0; 20];
    let mut start = digits.len();
    let mut rest = number.unsigned_abs();
    while rest > 0 {
        start -= 1;
        digits[start] = b'0' + (rest % 10) as u8;
        rest /= 10;
    }
    text.extend_from_slice(&digits[start..]);
}
