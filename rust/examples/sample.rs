//! Prints the directions and guards of a model file in words, and how far its slacks can grow: `cargo run --example sample [FILE]`.
//! Without a file it takes the specification's sample (Listing 8), examples/verdicts.bin of the repository.

use pepperscarp::{calm, judge, list_length, slack_limit, steps_within, sweep, Refusal, Verdict};
use std::process::ExitCode;

const SAMPLE: &[u8] = include_bytes!("../../examples/verdicts.bin");

fn main() -> ExitCode {
    let file = match std::env::args().nth(1) {
        None => SAMPLE.to_vec(),
        Some(path) => match std::fs::read(&path) {
            Ok(bytes) => bytes,
            Err(error) => {
                eprintln!("{path}: {error}");
                return ExitCode::FAILURE;
            }
        },
    };
    match describe(&file) {
        Ok(()) => ExitCode::SUCCESS,
        Err(refusal) => {
            eprintln!("{refusal}");
            ExitCode::FAILURE
        }
    }
}

fn describe(file: &[u8]) -> Result<(), Refusal> {
    // A file without a head is refused whatever the length.
    let length = list_length(file).unwrap_or(0);
    let mut bounds = vec![0; length];
    let mut slacks = vec![0; length];
    let mut direction = 0;
    loop {
        match sweep(file, direction, &mut bounds, &mut slacks) {
            Ok(spare) => {
                println!("direction {direction}: its figures could be doubled {spare} times");
                for (k, (bound, slack)) in bounds.iter().zip(&slacks).enumerate() {
                    println!("  step {k}: never above {bound}, and some run is at or above {}", bound - slack);
                }
            }
            Err(Refusal::Growth(step)) => println!("direction {direction}: no bounds, its figures grow too large at step {step}"),
            Err(Refusal::NoSuchNumber) => break,
            Err(refusal) => return Err(refusal),
        }
        direction += 1;
    }
    let mut guard = 0;
    loop {
        match judge(file, guard, &mut bounds, &mut slacks) {
            Ok(Verdict::Hit(step)) => println!("guard {guard}: HIT, some run is above the level at step {step}"),
            Ok(Verdict::Unknown(step)) => {
                println!("guard {guard}: UNKNOWN, not settled: the bound of step {step} is above the level")
            }
            Ok(Verdict::Clear) => println!("guard {guard}: CLEAR, no run is above the level"),
            Err(Refusal::Growth(step)) => println!("guard {guard}: no verdict, figures grow too large at step {step}"),
            Err(Refusal::NoSuchNumber) => break,
            Err(refusal) => return Err(refusal),
        }
        guard += 1;
    }
    if !calm(file)? {
        println!("not calm: no limit of the slacks is known");
        return Ok(());
    }
    // A model has at least one step.
    let last = length - 1;
    println!("calm: at the last step, {last}, no slack is above {}", slack_limit(file, last)?);
    for slack in [2, 10] {
        println!("  up to step {} no slack is above {slack}", steps_within(file, slack)?);
    }
    Ok(())
}
