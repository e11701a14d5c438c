//! The window program: a roster and call lines in, answer lines out.

use super::answer::Answer;
use super::call::Call;
use super::monitor::Monitor;
use super::roster;

/// How much of the input is read.
pub const MOST_BYTES: usize = 65_536;

/// The answers to an input of at most [`MOST_BYTES`].
pub fn serve(input: &[u8]) -> Vec<u8> {
    let (roster, calls) = roster::split(input);
    let mut output = Vec::with_capacity(calls.len());
    match Monitor::new(roster) {
        Err(fault) => fault.answer().print(&mut output),
        Ok(mut monitor) => calls
            .split_inclusive(|&byte| byte == b'\n')
            .for_each(|line| answer(line, &mut monitor).print(&mut output)),
    }
    output
}

/// Answers a line given with its end. Without one it is faulty.
fn answer(line: &[u8], monitor: &mut Monitor) -> Answer {
    line.strip_suffix(b"\n")
        .and_then(Call::parse)
        .map_or(Answer::FAULTY_LINE, |call| monitor.answer(&call))
}
