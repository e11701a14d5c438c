//! Times of a program's runs.

use std::fs;
use std::io;
use std::time::{Duration, Instant};

use crate::program::Program;
use crate::workloads::Workload;

/// How long a run took, by the clock and on the processor.
#[derive(Clone, Copy, Debug, Default)]
pub struct Time {
    pub wall: Duration,
    pub processor: Duration,
}

/// The times of the proved and of the plain program.
#[derive(Clone, Copy, Debug, Default)]
pub struct Pair {
    pub proved: Time,
    pub plain: Time,
}

/// One run, from its start to its end.
fn once(program: &Program, input: &[u8]) -> io::Result<Time> {
    let start = Instant::now();
    let mut started = program.start(input)?;
    started.read()?;
    let processor = processor_time(started.id())?;
    started.finish()?;
    Ok(Time { wall: start.elapsed(), processor })
}

/// The time on the processor of a process that has closed its output. What
/// the system says is exact once the process has ended and before its end is
/// taken note of.
fn processor_time(id: u32) -> io::Result<Duration> {
    loop {
        let stat = fs::read_to_string(format!("/proc/{id}/stat"))?;
        let state = stat.rsplit_once(") ").map(|(_, rest)| rest);
        if state.is_some_and(|state| state.starts_with('Z')) {
            break;
        }
    }
    let times = fs::read_to_string(format!("/proc/{id}/schedstat"))?;
    let nanoseconds = times.split(' ').next().and_then(|time| time.parse().ok());
    Ok(Duration::from_nanos(nanoseconds.unwrap_or(0)))
}

/// Runs both programs by turns, so that both meet the same weather, and gives
/// the medians of the rounds.
pub fn side_by_side(
    proved: &Program,
    plain: &Program,
    workload: &Workload,
    rounds: usize,
) -> io::Result<Pair> {
    let mut times = [Vec::new(), Vec::new()];
    for _ in 0..rounds {
        let mut sums = [Time::default(); 2];
        for _ in 0..workload.repeats {
            for (sum, program) in sums.iter_mut().zip([proved, plain]) {
                let time = once(program, &workload.input)?;
                sum.wall += time.wall;
                sum.processor += time.processor;
            }
        }
        for (times, sum) in times.iter_mut().zip(sums) {
            times.push(Time {
                wall: sum.wall / workload.repeats,
                processor: sum.processor / workload.repeats,
            });
        }
    }
    let [proved, plain] = times.map(|times| Time {
        wall: median(times.iter().map(|time| time.wall)),
        processor: median(times.iter().map(|time| time.processor)),
    });
    Ok(Pair { proved, plain })
}

fn median(times: impl Iterator<Item = Duration>) -> Duration {
    let mut times: Vec<Duration> = times.collect();
    times.sort_unstable();
    times.get(times.len() / 2).copied().unwrap_or_default()
}
