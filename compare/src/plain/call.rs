//! Call lines.

use super::numeral;

/// What a call line asks for.
#[derive(Clone, Debug, PartialEq, Eq)]
pub enum Call {
    Lay { person: u8, slot: u8, value: i32 },
    View { person: u8, slot: u8 },
    Run { person: u8, turns: u16, sheet: Vec<u8> },
}

impl Call {
    /// The call of a line, given without its end; nothing for a faulty line.
    pub fn parse(line: &[u8]) -> Option<Self> {
        let (letter, rest) = field(line)?;
        let (person, rest) = field(rest)?;
        let person = byte(person)?;
        match letter {
            b"L" => {
                let (slot, value) = field(rest)?;
                Some(Self::Lay { person, slot: byte(slot)?, value: numeral::signed(value)? })
            }
            b"V" => Some(Self::View { person, slot: byte(rest)? }),
            b"R" => {
                let (turns, digits) = field(rest)?;
                Some(Self::Run {
                    person,
                    turns: numeral::whole(turns)?.try_into().ok()?,
                    sheet: unhex(digits)?,
                })
            }
            _ => None,
        }
    }

    /// The person that the call names.
    pub fn person(&self) -> u8 {
        match *self {
            Self::Lay { person, .. } | Self::View { person, .. } | Self::Run { person, .. } => {
                person
            }
        }
    }
}

/// The text up to the first comma, and the text after it.
fn field(text: &[u8]) -> Option<(&[u8], &[u8])> {
    let comma = text.iter().position(|&byte| byte == b',')?;
    Some((&text[..comma], &text[comma + 1..]))
}

fn byte(text: &[u8]) -> Option<u8> {
    numeral::whole(text)?.try_into().ok()
}

/// What is no lower-case hexadecimal digit, in [`NIBBLES`].
const NO_DIGIT: u8 = 0xff;

/// The value of each byte as a digit.
const NIBBLES: [u8; 256] = {
    let mut nibbles = [NO_DIGIT; 256];
    let mut value = 0;
    while value < 16 {
        nibbles[b"0123456789abcdef"[value] as usize] = value as u8;
        value += 1;
    }
    nibbles
};

fn unhex(digits: &[u8]) -> Option<Vec<u8>> {
    let (pairs, []) = digits.as_chunks::<2>() else {
        return None;
    };
    let mut bytes = Vec::with_capacity(pairs.len());
    for pair in pairs {
        let [high, low] = pair.map(|digit| NIBBLES[usize::from(digit)]);
        if high | low == NO_DIGIT {
            return None;
        }
        bytes.push(high << 4 | low);
    }
    Some(bytes)
}
