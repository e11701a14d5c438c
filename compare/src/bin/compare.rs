//! Feeds the same inputs to the proved and to the plain window program and
//! compares their answers; tries the strike-out on the proved one.

use std::env;
use std::io;
use std::path::PathBuf;
use std::process::ExitCode;
use std::time::Instant;

use compare::differences::Differences;
use compare::edges;
use compare::inputs;
use compare::program::{Outcome, Program};
use compare::random::SplitMix64;
use compare::strike::Trial;
use compare::tally::{self, Tally};

const USAGE: &str =
    "usage: compare PROVED PLAIN [--count N] [--strikes N] [--seed S] [--keep FOLDER]";

struct Options {
    proved: Program,
    plain: Program,
    count: u64,
    strikes: u64,
    seed: u64,
    keep: PathBuf,
}

impl Options {
    fn parse(mut arguments: impl Iterator<Item = String>) -> Option<Self> {
        let mut options = Self {
            proved: Program::new(arguments.next()?),
            plain: Program::new(arguments.next()?),
            count: 100_000,
            strikes: 20_000,
            seed: 1,
            keep: PathBuf::from("."),
        };
        while let Some(name) = arguments.next() {
            let value = arguments.next()?;
            match name.as_str() {
                "--count" => options.count = value.parse().ok()?,
                "--strikes" => options.strikes = value.parse().ok()?,
                "--seed" => options.seed = value.parse().ok()?,
                "--keep" => options.keep = PathBuf::from(value),
                _ => return None,
            }
        }
        Some(options)
    }
}

/// The outcomes of the proved and of the plain program.
fn both(options: &Options, input: &[u8]) -> io::Result<(Outcome, Outcome)> {
    let proved = options.proved.start(input)?;
    let plain = options.plain.start(input)?;
    Ok((proved.finish()?, plain.finish()?))
}

fn try_edges(options: &Options) -> io::Result<Differences> {
    let mut differences = Differences::new(&options.keep, "edge");
    let edges = edges::all();
    for edge in &edges {
        let (proved, plain) = both(options, &edge.input)?;
        for (name, outcome) in [("proved", proved), ("plain", plain)] {
            if !outcome.success || outcome.output != edge.wanted {
                let answers = [(name, outcome.output.as_slice()), ("wanted", &edge.wanted)];
                differences.note(&edge.name, &edge.input, answers)?;
            }
        }
    }
    println!("handwritten inputs: {}, differences: {}", edges.len(), differences.count());
    Ok(differences)
}

fn try_random(options: &Options) -> io::Result<(Differences, Tally)> {
    let mut differences = Differences::new(&options.keep, "random");
    let mut tally = Tally::default();
    for number in 0..options.count {
        let input = inputs::input(&mut SplitMix64::for_trial(options.seed, number));
        let (proved, plain) = both(options, &input)?;
        if proved != plain || !proved.success {
            let answers = [("proved", proved.output.as_slice()), ("plain", &plain.output)];
            differences.note(&format!("random input {number}"), &input, answers)?;
        }
        tally.add(&input, &proved.output);
    }
    println!("random inputs: {}, differences: {}", options.count, differences.count());
    println!("{tally}");
    Ok((differences, tally))
}

/// What the strike-outs came to.
#[derive(Default)]
struct Strikes {
    with_struck: usize,
    struck: usize,
    carried_out: usize,
}

fn try_strikes(options: &Options) -> io::Result<Differences> {
    let mut differences = Differences::new(&options.keep, "strike-out");
    let mut strikes = Strikes::default();
    for number in 0..options.strikes {
        // Other trials than those of the random inputs.
        let trial = Trial::random(&mut SplitMix64::for_trial(!options.seed, number));
        let with = options.proved.start(&trial.with())?;
        let without = options.proved.run(&trial.without())?;
        let with = with.finish()?;
        let remaining = trial.remaining(&with.output);
        if !with.success || !trial.is_complete(&with.output) || remaining != without.output {
            let answers = [("with", remaining.as_slice()), ("without", &without.output)];
            differences.note(&format!("strike-out {number}"), &trial.with(), answers)?;
        }
        strikes.with_struck += usize::from(trial.struck() > 0);
        strikes.struck += trial.struck();
        strikes.carried_out += trial.carried_out(&with.output);
    }
    println!("strike-outs: {}, differences: {}", options.strikes, differences.count());
    println!("  that strike something {:>10}", strikes.with_struck);
    println!("  calls struck          {:>10}", strikes.struck);
    println!("  lays and runs of them {:>10}  (carried out)", strikes.carried_out);
    Ok(differences)
}

/// The kinds of answers that came less than once in 1,000 inputs.
fn scarce(tally: &Tally, count: u64) -> Vec<String> {
    tally::all_kinds()
        .filter(|&kind| (tally.count(kind) as u64) < count / 1000)
        .map(|kind| kind.to_string())
        .collect()
}

fn compare(options: &Options) -> io::Result<bool> {
    let start = Instant::now();
    println!("seed: {}", options.seed);
    let edges = try_edges(options)?;
    let (random, tally) = try_random(options)?;
    let strikes = try_strikes(options)?;
    let scarce = scarce(&tally, options.count);
    if !scarce.is_empty() {
        println!("too few answers of: {}", scarce.join("; "));
    }
    println!("time: {} s", start.elapsed().as_secs());
    let differences = edges.count() + random.count() + strikes.count();
    Ok(differences == 0 && scarce.is_empty())
}

fn main() -> ExitCode {
    let Some(options) = Options::parse(env::args().skip(1)) else {
        eprintln!("{USAGE}");
        return ExitCode::from(2);
    };
    match compare(&options) {
        Ok(true) => ExitCode::SUCCESS,
        Ok(false) => ExitCode::FAILURE,
        Err(error) => {
            eprintln!("{error}");
            ExitCode::FAILURE
        }
    }
}
