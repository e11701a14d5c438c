//! A roster and a list of calls, made at a new box all at once.
use crate::respond;
use std::fmt::Write;

/// What a call gives back: number 0 where it was carried out, with the value viewed or the turns taken, or the fault with its
/// row and byte, and after a cut the turns given as its value.
#[derive(Clone, Copy, Debug, PartialEq, Eq)]
pub struct Answer {
    pub number: u8,
    pub row: u16,
    pub byte: u16,
    pub value: i32,
}

/// Why there are no answers.
#[derive(Clone, Copy, Debug, PartialEq, Eq)]
pub enum SessionError {
    /// The roster was refused; the answer's row is its line.
    Roster(Answer),
    /// Roster and calls are over 65,536 bytes as text.
    TooLong,
}

/// A roster, and then calls. Labels are those of three topics (low) and a ladder of four levels (high).
#[derive(Clone, Debug, Default)]
pub struct Session {
    roster: String,
    calls: String,
    count: usize,
}

impl Session {
    pub fn new() -> Session {
        Session::default()
    }

    /// Lists a person, 0 to 15.
    pub fn person(&mut self, number: u8, label: u64) -> &mut Session {
        self.roster += &format!("P,{number},{label}\n");
        self
    }

    /// Lists a slot, 0 to 63.
    pub fn slot(&mut self, number: u8, label: u64) -> &mut Session {
        self.roster += &format!("S,{number},{label}\n");
        self
    }

    pub fn lay(&mut self, person: u8, slot: u8, value: i32) -> &mut Session {
        self.call(format!("L,{person},{slot},{value}\n"))
    }

    pub fn view(&mut self, person: u8, slot: u8) -> &mut Session {
        self.call(format!("V,{person},{slot}\n"))
    }

    pub fn run(&mut self, person: u8, sheet: &[u8], turns: u16) -> &mut Session {
        let mut line = format!("R,{person},{turns},");
        for byte in sheet {
            let _ = write!(line, "{byte:02x}");
        }
        line.push('\n');
        self.call(line)
    }

    fn call(&mut self, line: String) -> &mut Session {
        self.calls += &line;
        self.count += 1;
        self
    }

    /// Makes the calls at a new box with this roster, and gives an answer for each.
    pub fn answers(&self) -> Result<Vec<Answer>, SessionError> {
        let input = format!("{}{}", self.roster, self.calls);
        if input.len() > 65_536 {
            return Err(SessionError::TooLong);
        }
        let printed = respond(input.as_bytes());
        let text = String::from_utf8_lossy(&printed);
        let answers: Vec<Answer> = text.lines().map(answer).collect();
        match answers.as_slice() {
            // Numbers 1 to 5 are a roster's faults, and no call's.
            [only] if (1..=5).contains(&only.number) => Err(SessionError::Roster(*only)),
            _ => Ok(answers),
        }
    }
}

fn answer(line: &str) -> Answer {
    let mut fields = line
        .split(',')
        .map(|field| field.parse::<i64>().unwrap_or(0));
    let mut next = || fields.next().unwrap_or(0);
    Answer {
        number: next() as u8,
        row: next() as u16,
        byte: next() as u16,
        value: next() as i32,
    }
}
