//! Compares the picker, as built for C, with an exhaustive program that shares nothing with it. `tests/compare` builds
//! and runs it.

mod blocks;
mod call;
mod comparison;
mod exhaustive;
mod expected;
mod fence;
mod known;
mod product;
mod random;
mod rounds;

use call::Call;
use comparison::{Comparison, Outcome};
use std::process::ExitCode;
use std::time::{Duration, Instant};

const USAGE: &str = "\
tests/compare                          the gate's run: the same calls each time
tests/compare --seconds N [--seed S]   random blocks for N seconds more, from another seed
tests/compare --call TEXT-OR-FILE      makes calls again, each line of the text as a mismatch printed it";

/// The gate's run.
const SEED: u64 = 1;
const ROUNDS: usize = 2000;

struct Arguments {
    seed: u64,
    seconds: Option<u64>,
    calls: Option<String>,
}

fn arguments() -> Result<Arguments, String> {
    let mut parsed = Arguments { seed: SEED, seconds: None, calls: None };
    let mut words = std::env::args().skip(1);
    while let Some(word) = words.next() {
        let value = words.next().ok_or(USAGE)?;
        let number = || value.parse().map_err(|_| format!("{word} takes a number"));
        match word.as_str() {
            "--seed" => parsed.seed = number()?,
            "--seconds" => parsed.seconds = Some(number()?),
            "--call" => parsed.calls = Some(std::fs::read_to_string(&value).unwrap_or(value)),
            _ => return Err(USAGE.into()),
        }
    }
    Ok(parsed)
}

fn main() -> ExitCode {
    let arguments = match arguments() {
        Ok(arguments) => arguments,
        Err(what) => {
            eprintln!("{what}");
            return ExitCode::from(2);
        }
    };
    let mut comparison = Comparison::new(arguments.seed);
    let outcome = match &arguments.calls {
        Some(text) => again(&mut comparison, text),
        None => all(&mut comparison, arguments.seconds.map(Duration::from_secs)),
    };
    print!("{}", comparison.tally);
    match outcome {
        Ok(()) => {
            println!("no difference");
            ExitCode::SUCCESS
        }
        Err(mismatch) => {
            println!("a difference, with seed {}: {}", arguments.seed, mismatch.what);
            println!("again: tests/compare --call '{}'", mismatch.call);
            ExitCode::FAILURE
        }
    }
}

/// All that is compared in a run. Random blocks come for a fixed number of rounds, or for as long as is asked for.
fn all(comparison: &mut Comparison, time: Option<Duration>) -> Outcome {
    section("every small block", || comparison.every_small_block())?;
    section("long node rooms", || comparison.long_rooms())?;
    section("damaged files", || [0, 1, 2, 4, 9, 63, 64].into_iter().try_for_each(|n| comparison.damaged_file(n)))?;
    section("random blocks, faults and files", || {
        let start = Instant::now();
        let mut rounds = 0;
        while time.map_or(rounds < ROUNDS, |time| start.elapsed() < time) {
            comparison.random_block()?;
            comparison.random_file()?;
            if rounds % 4 == 0 {
                comparison.faults()?;
                comparison.larger_block()?;
            }
            if rounds % 16 == 0 {
                comparison.file_faults()?;
            }
            rounds += 1;
        }
        Ok(())
    })?;
    section("calls with known answers", || comparison.known())
}

fn section(name: &str, work: impl FnOnce() -> Outcome) -> Outcome {
    let start = Instant::now();
    let outcome = work();
    eprintln!("compare: {name}: {:.1} s", start.elapsed().as_secs_f64());
    outcome
}

/// Makes calls again that were printed by a mismatch, and says what the results are.
fn again(comparison: &mut Comparison, text: &str) -> Outcome {
    for line in text.lines().filter(|line| !line.trim().is_empty()) {
        let call = match Call::parse(line) {
            Ok(call) => call,
            Err(what) => {
                println!("not understood ({what}): {line}");
                continue;
            }
        };
        let out = product::make(&call).remove(0).after;
        if comparison.reference.expected(&call).is_some() {
            comparison.compare(call)?;
            println!("as it must be: {out:?}");
        } else {
            println!("beyond the exhaustive program: {out:?}");
        }
    }
    Ok(())
}
