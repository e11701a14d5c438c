//! A day at the lost property counter, told by a Rust program over the static library.
use tavumxa::{Answer, Session, SessionError};

const PEOPLE: [(&str, u64); 5] = [
    ("the traveller at the window", 0),
    ("the clerk for jewellery", 9),
    ("the clerk for money", 10),
    ("the back office for jewellery", 17),
    ("the station chief", 31),
];

const SLOT_LABELS: [u64; 8] = [0, 9, 17, 9, 9, 17, 17, 18];

// Finds which of two trains the owner is on.
const COMPARING: [[u8; 8]; 10] = [
    [1, 0, 5, 0, 0, 0, 0, 0],
    [3, 4, 6, 2, 0, 0, 0, 3],
    [4, 0, 0, 6, 0, 0, 0, 0],
    [1, 0, 5, 0, 0, 0, 0, 1],
    [5, 0, 0, 0, 0, 0, 0, 0],
    [3, 4, 6, 2, 0, 0, 0, 4],
    [4, 0, 0, 6, 0, 0, 0, 0],
    [1, 0, 5, 0, 0, 0, 0, 2],
    [7, 0, 0, 0, 0, 0, 0, 0],
    [7, 0, 0, 0, 0, 0, 0, 0],
];

// Would tell the counter whether the engraving is 1987.
const LEAKING: [[u8; 8]; 4] = [
    [2, 4, 6, 2, 0, 0, 7, 0xc3],
    [4, 0, 0, 6, 0, 0, 0, 0],
    [1, 0, 1, 0, 0, 0, 0, 1],
    [7, 0, 0, 0, 0, 0, 0, 0],
];

enum Act {
    Lay(u8, i32),
    View(u8),
    Run(&'static [[u8; 8]]),
}

fn day() -> Vec<(u8, &'static str, Act)> {
    use Act::{Lay, Run, View};
    vec![
        (0, "notes that a ring was handed in", Lay(0, 1)),
        (1, "notes the metal of the ring", Lay(1, 79)),
        (3, "notes the engraving", Lay(2, 1987)),
        (2, "notes the sum in a purse", Lay(7, 250)),
        (0, "asks for the engraving", View(2)),
        (0, "says 1986, from the first train", Lay(3, 1986)),
        (0, "says 1987, from the second train", Lay(4, 1987)),
        (1, "runs the sheet that compares", Run(&COMPARING)),
        (1, "asks which train the owner is on", View(5)),
        (3, "asks which train the owner is on", View(5)),
        (1, "runs the sheet that would tell", Run(&LEAKING)),
        (1, "asks for the metal of the ring", View(1)),
        (2, "asks for the engraving", View(2)),
    ]
}

fn told(act: &Act, answer: Answer) -> String {
    match (answer.number, act) {
        (0, Act::Lay(..)) => "done".into(),
        (0, Act::View(_)) => answer.value.to_string(),
        (0, Act::Run(_)) => format!("done in {} turns", answer.value),
        (31, _) => format!("refused with fault 31 at row {}", answer.row),
        (number, _) => format!("refused with fault {number}"),
    }
}

fn main() -> Result<(), SessionError> {
    let mut session = Session::new();
    for (number, (_, label)) in (0..).zip(PEOPLE) {
        session.person(number, label);
    }
    for (number, label) in (0..).zip(SLOT_LABELS) {
        session.slot(number, label);
    }
    let day = day();
    for (person, _, act) in &day {
        match act {
            Act::Lay(slot, value) => session.lay(*person, *slot, *value),
            Act::View(slot) => session.view(*person, *slot),
            Act::Run(rows) => session.run(*person, rows.as_flattened(), 100),
        };
    }
    println!("A day at the box:");
    for ((person, words, act), answer) in day.iter().zip(session.answers()?) {
        println!(
            "  {} {words}: {}",
            PEOPLE[usize::from(*person)].0,
            told(act, answer)
        );
    }
    Ok(())
}
