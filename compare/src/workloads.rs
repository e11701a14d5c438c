//! Inputs that are timed.

use crate::plain::operation::Operation::{self, Difference, Sum};
use crate::plain::window::MOST_BYTES;
use crate::random::SplitMix64;
use crate::rows::{Bytes, ELSE, END, if_row, put, run_line, while_row, with_constant, with_slot};

#[derive(Clone, Debug)]
pub struct Workload {
    pub name: String,
    pub input: Vec<u8>,
    /// Runs in a round; short ones are run often.
    pub repeats: u32,
    /// Rows run, counting each as often as it is run.
    pub rows_run: Option<u64>,
}

impl Workload {
    fn new(name: impl Into<String>, input: String, repeats: u32) -> Self {
        Self { name: name.into(), input: input.into_bytes(), repeats, rows_run: None }
    }
}

/// What it takes to start and end, with nothing to do.
pub fn nothing() -> Workload {
    Workload::new("empty input", String::new(), 20)
}

/// The four kinds of work.
pub fn all() -> [Workload; 4] {
    [arithmetic(200, 65_535), nested(), judged(), lays_and_views()]
}

/// One loop of so many turns over so many rows of arithmetic, the same 50 over
/// and over. Each turn also runs a while row, a row that counts down, and an
/// end row.
pub fn arithmetic(rows: usize, turns: u16) -> Workload {
    let block = random_rows(50, 0);
    looped(block.into_iter().cycle().take(rows).collect(), turns)
}

/// The same with 200 rows that do not repeat, chosen by a seed: how well a
/// processor foresees the next row's case depends on them.
pub fn mixed(seed: u64) -> Workload {
    looped(random_rows(200, seed), 65_535)
}

/// As many of each operation, in turn.
fn random_rows(count: usize, seed: u64) -> Vec<Bytes> {
    let mut random = SplitMix64::new(seed);
    (0..count).map(|row| arithmetic_row(Operation::ALL[row % 8], &mut random)).collect()
}

fn looped(body: Vec<Bytes>, turns: u16) -> Workload {
    let rows = body.len();
    let mut sheet = vec![put(0, turns.into()), while_row(0)];
    sheet.extend(body);
    sheet.extend([with_constant(Difference, 0, 0, 1), END]);
    let roster = "P,0,0\n".to_owned() + &slot_lines(16);
    let input = format!("{roster}{}V,0,1\n", run_line(0, turns, &sheet));
    Workload {
        rows_run: Some(u64::from(turns) * (rows as u64 + 3)),
        ..Workload::new(format!("{turns} turns, {rows} rows"), input, 1)
    }
}

/// Half with a constant, half with a slot; slot 0 is left to the loop.
fn arithmetic_row(operation: Operation, random: &mut SplitMix64) -> Bytes {
    let mut slot = || 1 + random.below(15) as u8;
    let (target, first, second) = (slot(), slot(), slot());
    if random.chance(50) {
        with_slot(operation, target, first, second)
    } else {
        with_constant(operation, target, first, random.number() as i32)
    }
}

/// Short loops and ifs within a loop.
fn nested() -> Workload {
    let flip = [if_row(2), put(2, 0), ELSE, put(2, 1), with_constant(Sum, 3, 3, 1), END];
    let choose = [if_row(4), if_row(2), put(5, 7), END, ELSE, put(4, 1), END];
    let inner = [
        vec![put(1, 4), while_row(1)],
        flip.to_vec(),
        choose.to_vec(),
        vec![with_constant(Difference, 1, 1, 1), END],
    ]
    .concat();
    let sheet = [
        vec![put(0, 7000), while_row(0)],
        inner.repeat(2),
        vec![with_constant(Difference, 0, 0, 1), END],
    ]
    .concat();
    let input = "P,0,0\n".to_owned() + &slot_lines(8) + &run_line(0, 65_535, &sheet).repeat(10);
    Workload::new("nested loops and ifs", input, 1)
}

/// Sheets of 256 rows that are refused in the last row by judging.
fn judged() -> Workload {
    let block = [
        with_slot(Sum, 1, 2, 3),
        while_row(1),
        if_row(2),
        with_constant(Difference, 3, 2, -1),
        ELSE,
        put(4, 9),
        END,
        END,
    ];
    let mut sheet = block.repeat(32);
    // A leak in place of the last end, and that end a row earlier.
    sheet.splice(254.., [END, with_constant(Sum, 1, 63, 0)]);
    sheet[253] = END;
    sheet[252] = put(4, 9);
    let roster = "P,0,0\nS,63,1\n".to_owned() + &slot_lines(8);
    let line = run_line(0, 9, &sheet);
    let count = (MOST_BYTES - roster.len()) / line.len();
    Workload::new("judged only", roster + &line.repeat(count), 20)
}

/// Lays and views that fill the input.
fn lays_and_views() -> Workload {
    let mut random = SplitMix64::new(0);
    let mut input = "P,0,0\n".to_owned() + &slot_lines(64);
    loop {
        let (slot, value) = (random.below(64), random.number() as i32);
        let lines = format!("L,0,{slot},{value}\nV,0,{slot}\n");
        if input.len() + lines.len() > MOST_BYTES {
            return Workload::new("lays and views", input, 20);
        }
        input += &lines;
    }
}

/// Lists all slots below a limit that the work uses, at the bottom.
fn slot_lines(limit: u8) -> String {
    (0..limit).map(|slot| format!("S,{slot},0\n")).collect()
}
