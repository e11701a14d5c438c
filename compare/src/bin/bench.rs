//! Times the proved and the plain window program side by side.

use std::env;
use std::io;
use std::process::ExitCode;
use std::time::Duration;

use compare::measure::{Pair, Time, side_by_side};
use compare::program::Program;
use compare::workloads::{self, Workload};

const USAGE: &str = "usage: bench PROVED PLAIN [--rounds N]";

struct Bench {
    proved: Program,
    plain: Program,
    rounds: usize,
}

impl Bench {
    fn parse(mut arguments: impl Iterator<Item = String>) -> Option<Self> {
        let mut bench = Self {
            proved: Program::new(arguments.next()?),
            plain: Program::new(arguments.next()?),
            rounds: 15,
        };
        match (arguments.next().as_deref(), arguments.next()) {
            (None, _) => {}
            (Some("--rounds"), Some(rounds)) => bench.rounds = rounds.parse().ok()?,
            _ => return None,
        }
        Some(bench)
    }

    fn time(&self, workload: &Workload) -> io::Result<Pair> {
        side_by_side(&self.proved, &self.plain, workload, self.rounds)
    }

    /// The work in all its kinds; gives what starting takes.
    fn ratios(&self) -> io::Result<Pair> {
        println!("Milliseconds, medians of {} rounds. A ratio is proved by plain;", self.rounds);
        println!("net is without the time for the empty input.\n");
        println!("| Work | Measured | Proved | Plain | Ratio | Ratio net |");
        println!("|---|---|---|---|---|---|");
        let start = self.time(&workloads::nothing())?;
        print_ratios("empty input", start, Pair::default());
        for workload in workloads::all() {
            print_ratios(&workload.name, self.time(&workload)?, start);
        }
        Ok(start)
    }

    /// Whether the time grows as the rows that are run.
    fn growth(&self, start: Pair) -> io::Result<()> {
        println!("\nNanoseconds on the processor for each row run, net.\n");
        println!("| Work | Rows run | Proved | Plain |");
        println!("|---|---|---|---|");
        let by_turns = [16_384, 32_768, 65_535].map(|turns| workloads::arithmetic(200, turns));
        let by_rows = [50, 100, 200].map(|rows| workloads::arithmetic(rows, 65_535));
        for workload in by_turns.iter().chain(&by_rows) {
            let time = self.time(workload)?;
            let rows = workload.rows_run.unwrap_or(1);
            let each =
                |time: Time, start: Time| net(time.processor, start.processor) * 1e6 / rows as f64;
            let (proved, plain) = (each(time.proved, start.proved), each(time.plain, start.plain));
            println!("| {} | {rows} | {proved:.3} | {plain:.3} |", workload.name);
        }
        Ok(())
    }

    /// The long loop over other rows.
    fn mixes(&self) -> io::Result<()> {
        let mut ratios = Vec::new();
        for seed in 1..=11 {
            let time = self.time(&workloads::mixed(seed))?;
            let [proved, plain] = [time.proved, time.plain].map(|time| time.processor);
            ratios.push(proved.as_secs_f64() / plain.as_secs_f64());
        }
        ratios.sort_by(f64::total_cmp);
        let all: Vec<String> = ratios.iter().map(|ratio| format!("{ratio:.2}")).collect();
        println!("\n65535 turns over 200 other rows, eleven sheets, ratios: {}.", all.join(", "));
        println!("The median is {}.", all[all.len() / 2]);
        Ok(())
    }
}

/// Milliseconds beyond those for starting.
fn net(time: Duration, start: Duration) -> f64 {
    (time.as_secs_f64() - start.as_secs_f64()) * 1e3
}

fn print_ratios(name: &str, time: Pair, start: Pair) {
    let line = |measured: &str, measure: fn(Time) -> Duration| {
        let [proved, plain, proved_start, plain_start] =
            [time.proved, time.plain, start.proved, start.plain].map(measure);
        let ratio = proved.as_secs_f64() / plain.as_secs_f64();
        let ratio_net = net(proved, proved_start) / net(plain, plain_start);
        let [proved, plain] = [proved, plain].map(|time| time.as_secs_f64() * 1e3);
        println!(
            "| {name} | {measured} | {proved:.3} | {plain:.3} | {ratio:.2} | {ratio_net:.2} |"
        );
    };
    line("processor", |time| time.processor);
    line("clock", |time| time.wall);
}

fn main() -> ExitCode {
    let Some(bench) = Bench::parse(env::args().skip(1)) else {
        eprintln!("{USAGE}");
        return ExitCode::from(2);
    };
    match bench.ratios().and_then(|start| bench.growth(start)).and_then(|()| bench.mixes()) {
        Ok(()) => ExitCode::SUCCESS,
        Err(error) => {
            eprintln!("{error}");
            ExitCode::FAILURE
        }
    }
}
